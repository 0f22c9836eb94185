class Node { Node next; }
class Ring {
  static void open(Node n, Node p)
  /*: requires "p ~= null & n ~= p & p..Node.next = n & rtrancl_pt (% u v. u..Node.next = v) n p"
      modifies Node.next ensures "rtrancl_pt (% u v. u..Node.next = v) n p" */
  { p.next = null; }
}
