// A doubly linked list: a field constraint says that prev is the way back along next.
class Node { Node next; Node prev; }
class List {
  private static Node first;
  /*: public static specvar content :: objset;
      vardefs "content == {x. x ~= null & rtrancl_pt (% u v. u..Node.next = v) first x}";
      invariant shape: "tree [Node.next]";
      invariant root: "first = null | (ALL y. y..Node.next ~= first)";
      invariant back: "ALL x y. x..Node.prev = y --> ((x = null | (ALL z. z..Node.next ~= x)) --> y = null) & (x ~= null & (EX z. z..Node.next = x) --> y..Node.next = x)"; */

  public static void add(Node n)
  /*: requires "n ~= null & n ~: content & n..Node.next = null & (ALL y. y..Node.next ~= n)"
      modifies content, Node.prev
      ensures "content = old content Un {n}" */
  { n.next = first; if (first != null) { first.prev = n; } first = n; }
}
