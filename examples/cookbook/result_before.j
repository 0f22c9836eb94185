class Node { Object data; Node next; }
class List {
  private static Node first;
  /*: public static specvar nodes :: objset;
      vardefs "nodes == {n. n ~= null & rtrancl_pt (% u v. u..Node.next = v) first n}"; */
  static void add(Object x)
  /*: requires "tree [Node.next]" modifies nodes, Node.data
      ensures "EX n. nodes = old nodes Un {n} & n..Node.data = x" */
  { Node n = new Node(); n.data = x; n.next = first; first = n; }
}
