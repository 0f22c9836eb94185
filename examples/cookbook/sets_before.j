class Node { Node next; }
class Two {
  private static Node a; private static Node b;
  /*: public static specvar ca :: objset;
      vardefs "ca == {n. n ~= null & rtrancl_pt (% u v. u..Node.next = v) a n}";
      public static specvar cb :: objset;
      vardefs "cb == {n. n ~= null & rtrancl_pt (% u v. u..Node.next = v) b n}";
      invariant shape: "tree [Node.next]";
      invariant rootb: "b = null | (ALL y. y..Node.next ~= b)";
      invariant apart: "a = null | a ~= b"; */
  public static void join(Node p)
  /*: requires "p : ca & p..Node.next = null" modifies ca, cb ensures "cb = {}" */
  { p.next = b; b = null; }
}
