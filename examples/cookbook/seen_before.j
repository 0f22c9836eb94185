class Node { Node next; }
class List {
  static Node first;
  /*: static specvar nodes :: objset;
      vardefs "nodes == {n. n ~= null & rtrancl_pt (% u v. u..Node.next = v) first n}"; */
  static int count() /*: ensures "result = card nodes" */
  { Node p = first; int k = 0;
    while /*: inv rest: "k + card {n. n ~= null & rtrancl_pt (% u v. u..Node.next = v) p n} = card nodes" */
    (p != null) { k = k + 1; p = p.next; }
    return k; }
}
