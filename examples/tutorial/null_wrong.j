class Node { Node next; }
class Two {
  static void link(Node p, Node q)
  /*: modifies Node.next
      ensures "p..Node.next = q" */
  { p.next = q; }
}
