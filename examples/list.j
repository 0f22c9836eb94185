// A list of nodes over a field, and the set of what is in it.
class Node { Node next; }
class List {
  private static Node first;
  /*: public static specvar content :: objset;
      vardefs "content == {x. x ~= null & rtrancl_pt (% u v. u..Node.next = v) first x}";
      invariant shape: "tree [Node.next]";
      invariant root: "first = null | (ALL y. y..Node.next ~= first)"; */

  public static void add(Node n)
  /*: requires "n ~= null & n ~: content & n..Node.next = null & (ALL y. y..Node.next ~= n)"
      modifies content
      ensures "content = old content Un {n}" */
  { n.next = first; first = n; }
}
