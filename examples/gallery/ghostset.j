// Two ghost sets, what is free and what is used, with the sizes of both.
class Bag {
  /*: public static ghost specvar free :: objset; public static ghost specvar used :: objset;
      invariant apart: "free Int used = {}"; invariant total: "card free + card used = all";
      invariant cnt: "card used = taken"; */
  private static int taken;
  private static int all;
  public static void take(Object x)
  /*: requires "x : free" modifies free, used, taken
      ensures "x : used & used = old used Un {x} & free = old free - {x}" */
  { //: free := "free - {x}"; used := "used Un {x}";
    taken = taken + 1; }
  public static void give(Object x)
  /*: requires "x : used" modifies free, used, taken
      ensures "used = old used - {x} & free = old free Un {x}" */
  { //: used := "used - {x}"; free := "free Un {x}";
    taken = taken - 1; }
  public static void enter(Object x)
  /*: requires "x ~: free & x ~: used" modifies free, all
      ensures "free = old free Un {x} & all = old all + 1" */
  { //: free := "free Un {x}";
    all = all + 1; }
  public static boolean none()
  /*: ensures "result = (free = {})" */
  { return taken == all; }
  public static void swap(Object x, Object y)
  /*: requires "x : used & y : free & x ~: free" modifies free, used, taken
      ensures "card used = old (card used) & x : free & y : used" */
  { //: note a: "x : used & y ~: used";
    give(x);
    //: note b: "used = old used - {x}";
    //: note d: "y ~: used";
    take(y);
    //: note c: "used = (old used - {x}) Un {y}" from b, post;
    //: note f: "card used = old (card used)" from a, c;
  }
}
