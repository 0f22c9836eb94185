class Node { Node next; }
class Stack {
  private static Node top; private static int size;
  /*: public static specvar nodes :: objset;
      vardefs "nodes == {n. n ~= null & rtrancl_pt (% u v. u..Node.next = v) top n}";
      invariant count: "card nodes = size"; */
  public static void push()
  /*: requires "tree [Node.next]" modifies nodes, size */
  { Node n = new Node(); n.next = top; top = n; size = size + 1;
  }
}
