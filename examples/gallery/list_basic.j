// A list of objects: clear, isEmpty, add, removeFirst, member.
class Node { Object data; Node next; }
class List {
  private static Node first;
  /*: public static specvar nodes :: objset;
      vardefs "nodes == {n. n ~= null & rtrancl_pt (% u v. u..Node.next = v) first n}";
      public static specvar content :: objset;
      vardefs "content == {x. EX n. n ~= null & rtrancl_pt (% u v. u..Node.next = v) first n & n..Node.data = x}";
      invariant shape: "tree [Node.next]";
      invariant root: "first = null | (ALL y. y..Node.next ~= first)"; */

  public static void clear() /*: modifies content ensures "content = {}" */
  { first = null; }
  public static boolean isEmpty() /*: ensures "result = (content = {})" */
  { //: note head: "first = null | first..Node.data : content";
    return first == null; }
  public static void add(Object x) /*: modifies content ensures "content = old content Un {x}" */
  { Node n = new Node(); n.data = x; n.next = first; first = n; }
  public static Object removeFirst()
  /*: requires "content ~= {}" modifies nodes
      ensures "nodes = old nodes - {old first} & result = old (first..Node.data) & old content = content
              Un {result}" */
  { //: note some: "first ~= null";
    Node n = first; first = n.next; n.next = null; return n.data; }
  public static boolean member(Object x) /*: ensures "result = (x : content)" */
  { Node p = first;
    while /*: inv "(x : content) = (EX n. n ~= null & rtrancl_pt (% u v. u..Node.next = v) p n
            & n..Node.data = x)" */ (p != null) {
      if (p.data == x) { return true; }
      p = p.next; }
    return false; }
}
