// Appends one list to another.
class Node { Object data; Node next; }
class Two {
  private static Node a; private static Node b; private static Node last;
  /*: public static specvar ca :: objset;
      vardefs "ca == {n. n ~= null & rtrancl_pt (% u v. u..Node.next = v) a n}";
      public static specvar cb :: objset;
      vardefs "cb == {n. n ~= null & rtrancl_pt (% u v. u..Node.next = v) b n}";
      invariant shape: "tree [Node.next]";
      invariant roota: "a = null | (ALL y. y..Node.next ~= a)";
      invariant rootb: "b = null | (ALL y. y..Node.next ~= b)";
      invariant apart: "a = null | ca Int cb = {}"; */
  public static void append()
  /*: modifies ca, cb ensures "ca = old ca Un old cb & cb = {}" */
  { if (a == null) { a = b; }
    else { Node p = a;
      while /*: inv in: "p : ca" */ (p.next != null) { p = p.next; }
      //: note out: "p ~: cb";
      p.next = b; }
    b = null; }
}
