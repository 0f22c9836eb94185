class Buffer {
  private static int used; private static int room;
  /*: public static ghost specvar items :: objset;
      invariant cap: "used <= room"; invariant count: "card items = used"; */
  public static boolean put(Object x)
  /*: requires "x ~: items" modifies items, used
      ensures "result = (old used < room) & (result --> items = old items Un {x}) & (~ result --> items = old items)" */
  { boolean fits = used < room;
    if (fits) { used = used + 1;
      //: items := "items Un {x}";
    }
    return fits; }
}
