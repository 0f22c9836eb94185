class Node { Node next; Object data; }
class List {
  static Node first;
  /*: static specvar nodes :: objset;
      vardefs "nodes == {n. n ~= null & rtrancl_pt (% u v. u..Node.next = v) first n}"; */
  static void well(Node n) /*: requires "n ~= null" modifies nodes */ { n.next = first; first = n; }
  static void ill(Node n) /*: requires "n ~= null" modifies nodes */ { n.data = n; }
}
