// A list with a cursor: insert and remove behind it.
class Node { Object data; Node next; }
class Cursor {
  private static Node first; private static Node at;
  /*: public static specvar nodes :: objset;
      vardefs "nodes == {n. n ~= null & rtrancl_pt (% u v. u..Node.next = v) first n}";
      invariant shape: "tree [Node.next]";
      invariant root: "first = null | (ALL y. y..Node.next ~= first)";
      invariant there: "at ~= null --> at : nodes"; */
  public static void reset() /*: modifies at ensures "at = first" */ { at = first; }
  public static void advance() /*: requires "at ~= null"
      modifies at
      ensures "at = old (at..Node.next)" */ { at = at.next; }
  public static Node insert(Object x)
  /*: requires "at ~= null" modifies nodes, Node.data
      ensures "result ~: old nodes & nodes = old nodes Un {result} & at..Node.next = result
              & result..Node.data = x" */
  { Node n = new Node(); n.data = x; Node s = at.next; at.next = n;
    //: note mid: "tree [Node.next]";
    n.next = s; return n; }
  public static void removeNext()
  /*: requires "at ~= null & at..Node.next ~= null" modifies nodes
      ensures "nodes = old nodes - {old (at..Node.next)}" */
  { Node n = at.next; Node s = n.next; n.next = null;
    //: note cut: "tree [Node.next]";
    at.next = s; }
}
