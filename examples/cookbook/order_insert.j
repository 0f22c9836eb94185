class Node { Node next; }
class List {
  /*: invariant shape: "tree [Node.next]"; */
  public static void insertAfter(Node p, Node n)
  /*: requires "p ~= null & n ~= null & p ~= n & n..Node.next = null & (ALL y. y..Node.next ~= n)"
      modifies Node.next */
  { Node s = p.next; p.next = n;
    //: note mid: "tree [Node.next]";
    n.next = s; }
}
