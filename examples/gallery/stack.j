// A stack with its size.
class Node { Object data; Node next; }
class Stack {
  private static Node top; private static int size;
  /*: public static specvar nodes :: objset;
      vardefs "nodes == {n. n ~= null & rtrancl_pt (% u v. u..Node.next = v) top n}";
      invariant shape: "tree [Node.next]";
      invariant root: "top = null | (ALL y. y..Node.next ~= top)";
      invariant count: "card nodes = size"; */
  public static void push(Object x)
  /*: modifies nodes, size
          ensures "size = old size + 1 & top..Node.data = x & top..Node.next = old top & nodes = old nodes
          Un {top}" */
  { Node n = new Node(); n.data = x; n.next = top; top = n; size = size + 1;
    //: note grown: "nodes = old nodes Un {n} & n ~: old nodes";
  }
  public static Object pop()
  /*: requires "nodes ~= {}" modifies nodes, size
      ensures "result = old (top..Node.data) & top = old (top..Node.next) & nodes = old nodes - {old top}
              & size = old size - 1" */
  { //: note some: "top ~= null";
    Node n = top;
    //: note there: "n : nodes";
    Object x = n.data; top = n.next; n.next = null; size = size - 1;
    //: note less: "nodes = old nodes - {n}"; note was: "n : old nodes";
    return x; }
  public static boolean isEmpty() /*: ensures "result = (nodes = {})" */
  { return size == 0; }
}
