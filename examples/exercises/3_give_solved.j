class Bag {
  private static int taken;
  /*: public static ghost specvar free :: objset; public static ghost specvar used :: objset;
      invariant apart: "free Int used = {}"; invariant count: "card used = taken"; */
  public static void give(Object x)
  /*: requires "x : used"
      modifies free, used, taken
      ensures "used = old used - {x} & free = old free Un {x} & taken = old taken - 1" */
  { taken = taken - 1;
    //: used := "used - {x}"; free := "free Un {x}";
  }
}
