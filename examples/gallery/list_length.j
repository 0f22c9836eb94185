// A list with its length, and a loop that counts it.
class Node { Object data; Node next; }
class List {
  private static Node first; private static int size;
  /*: public static specvar nodes :: objset;
      vardefs "nodes == {n. n ~= null & rtrancl_pt (% u v. u..Node.next = v) first n}";
      public static ghost specvar seen :: objset;
      invariant shape: "tree [Node.next]";
      invariant root: "first = null | (ALL y. y..Node.next ~= first)";
      invariant count: "card nodes = size"; */
  public static void add(Object x) /*: modifies nodes, size, Node.data
          ensures "size = old size + 1 & (EX n. n ~: old nodes & nodes = old nodes Un {n} & n..Node.data = x)" */
  { Node n = new Node(); n.data = x; n.next = first; first = n; size = size + 1;
    //: note added: "n ~: old nodes & nodes = old nodes Un {n} & n..Node.data = x";
  }
  public static int length() /*: ensures "result = card nodes & 0 <= result" */ { return size; }
  public static int count() /*: modifies seen ensures "result = card nodes" */
  { Node p = first; int k = 0;
    //: seen := "{}";
    while /*: inv in: "p = null | p : nodes"
              inv rest: "ALL n. n : nodes --> n : seen | rtrancl_pt (% u v. u..Node.next = v) p n"
              inv part: "seen <= nodes"
              inv fresh: "ALL n. n : seen --> ~ rtrancl_pt (% u v. u..Node.next = v) p n | n = null"
              inv k: "k = card seen" */
    (p != null) {
      //: note out: "p ~: seen";
      k = k + 1;
      //: seen := "seen Un {p}";
      p = p.next; }
    //: note all: "seen = nodes";
    return k; }
}
