// A buffer with room for so many items, counted.
class Buffer {
  private static int used; private static int room; private static int total;
  /*: public static ghost specvar items :: objset; public static ghost specvar taken :: objset;
      invariant cap: "0 <= used & used <= room"; invariant count: "card items = used";
      invariant done: "card taken + used = total"; */
  static boolean hasRoom() /*: ensures "~ ~ (result = (used < room))" */ { return used < room; }
  public static boolean put(Object x)
  /*: requires "x ~: items & x ~: taken" modifies items, used, total
      ensures "~ ~ (result = (old used < room)) & (result --> items = old items Un {x})
               & (~ result --> items = old items)" */
  { boolean fits = hasRoom();
    //: note asked: "~ ~ (fits = (used < room))" from post;
    if (fits) {
      //: note some: "used < room" from asked, cond; note low: "0 <= used" from cap;
      used = used + 1; total = total + 1;
      //: items := "items Un {x}";
      //: note n1: "0 <= used & used <= room" from some, low;
      //: note n2: "card items = used" from count, pre;
      //: note n3: "card taken + used = total" from done;
    }
    return fits; }
  public static void take(Object x)
  /*: requires "x : items & x ~: taken" modifies items, taken, used
      ensures "items = old items - {x} & taken = old taken Un {x} & used = old used - 1" */
  { used = used - 1;
    //: items := "items - {x}"; taken := "taken Un {x}";
    //: note n2: "card items = used" from count, pre;
    //: note n1: "0 <= used & used <= room" from cap, n2;
    //: note n3: "card taken + used = total" from done, pre;
  }
  public static int free() /*: ensures "result = room - card items & 0 <= result" */
  { //: note n1: "0 <= room - used" from cap;
    //: note n2: "room - used = room - card items" from count;
    return room - used; }
}
