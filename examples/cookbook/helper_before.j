class Node { Object data; Node next; }
class List {
  private static Node first;
  /*: public static specvar nodes :: objset;
      vardefs "nodes == {n. n ~= null & rtrancl_pt (% u v. u..Node.next = v) first n}";
      public static specvar content :: objset;
      vardefs "content == {x. EX n. n : nodes & n..Node.data = x}";
      invariant shape: "tree [Node.next]";
      invariant root: "first = null | (ALL y. y..Node.next ~= first)"; */
  public static void addLast(Object x)
  /*: modifies nodes, Node.data ensures "content = old content Un {x}" */
  { Node n = new Node(); n.data = x;
    if (first == null) { first = n; }
    else {
      Node p = first;
      while /*: inv in: "p : nodes" */ (p.next != null) { p = p.next; }
      p.next = n;
      //: note t: "tree [Node.next]"; note grown: "nodes = old nodes Un {n}"; note d: "n..Node.data = x";
    }
  }
}
