class Node { Node next; }
class List {
  /*: invariant shape: "tree [Node.next]"; */
  public static void removeAfter(Node p)
  /*: requires "p ~= null & p..Node.next ~= null" modifies Node.next */
  { Node n = p.next;
    p.next = n.next; n.next = null; }
}
