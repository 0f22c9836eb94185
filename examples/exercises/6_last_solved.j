class Node { Node next; }
class List {
  static Node first;
  /*: static specvar nodes :: objset;
      vardefs "nodes == {n. n ~= null & rtrancl_pt (% u v. u..Node.next = v) first n}"; */
  static Node last()
  /*: requires "first ~= null" ensures "result : nodes & result..Node.next = null" */
  { Node p = first;
    while /*: inv "p : nodes" */ (p.next != null) { p = p.next; }
    return p; }
}
