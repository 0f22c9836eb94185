class Bag {
  private static int size;
  /*: public static ghost specvar items :: objset;
      invariant count: "card items = size"; */
  public static void put(Object x)
  /*: requires "x ~: items" modifies items, size ensures "items = old items Un {x}" */
  { //: items := "items Un {x}";
  }
}
