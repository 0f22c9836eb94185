// A queue: at the end in, at the front out.
class Node { Object data; Node next; }
class Queue {
  private static Node head; private static Node tail;
  /*: public static specvar nodes :: objset;
      vardefs "nodes == {n. n ~= null & rtrancl_pt (% u v. u..Node.next = v) head n}";
      invariant shape: "tree [Node.next]";
      invariant root: "head = null | (ALL y. y..Node.next ~= head)";
      invariant both: "(head = null) = (tail = null)";
      invariant end: "tail ~= null --> tail : nodes & tail..Node.next = null"; */
  public static void enqueue(Object x)
  /*: modifies nodes, tail, Node.data
          ensures "nodes = old nodes Un {tail} & tail ~: old nodes & tail..Node.data = x" */
  { Node n = new Node(); n.data = x;
    if (tail == null) { head = n; } else { tail.next = n; }
    tail = n; }
  public static Object dequeue()
  /*: requires "nodes ~= {}" modifies nodes, tail
      ensures "result = old (head..Node.data) & nodes = old nodes - {old head}" */
  { //: note some: "head ~= null";
    Node n = head; head = n.next;
    if (head == null) { tail = null; }
    n.next = null; return n.data; }
  public static boolean isEmpty() /*: ensures "result = (nodes = {})" */
  { //: note h: "head = null | head : nodes";
    return head == null; }
}
