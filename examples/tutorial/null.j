class Node { Node next; }
class Two {
  static void link(Node p, Node q)
  /*: requires "p ~= null" modifies Node.next
      ensures "p..Node.next = q" */
  { p.next = q; }
}
