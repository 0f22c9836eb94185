class Node { Node next; Node prev; }
class List {
  private static Node first;
  /*: public static specvar content :: objset;
      vardefs "content == {x. x ~= null & rtrancl_pt (% u v. u..Node.next = v) first x}";
      invariant shape: "tree [Node.next]";
      invariant root: "first = null | (ALL y. y..Node.next ~= first)";
      invariant there: "ALL x. x..Node.next = null | x..Node.next..Node.prev = x"; */
  public static void add(Node n)
  /*: requires "n ~= null & n ~: content & n..Node.next = null & (ALL y. y..Node.next ~= n)"
      modifies content, Node.prev
      ensures "content = old content Un {n}" */
  { n.next = first; if (first != null) { first.prev = n; } first = n; }
}
