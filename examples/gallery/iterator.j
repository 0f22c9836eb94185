// A list that is gone through once, node by node.
class Node { Object data; Node next; }
class List {
  private static Node first; private static Node at;
  /*: public static ghost specvar visited :: objset;
      public static specvar nodes :: objset;
      vardefs "nodes == {n. n ~= null & rtrancl_pt (% u v. u..Node.next = v) first n}";
      public static specvar todo :: objset;
      vardefs "todo == {n. n ~= null & rtrancl_pt (% u v. u..Node.next = v) at n}";
      static specvar shape :: bool; vardefs "shape == ~ ~ tree [Node.next]";
      static specvar part :: bool; vardefs "part == ~ ~ (visited Un todo = nodes & visited Int todo = {})";
      invariant shape: "shape"; invariant part: "part"; */
  public static void start() /*: modifies at, visited ensures "visited = {} & todo = nodes" */
  { at = first;
    //: visited := "{}";
  }
  public static boolean hasNext() /*: ensures "result = (todo ~= {})" */
  { //: note h: "at = null | at : todo";
    return at != null; }
  public static Node next()
  /*: requires "todo ~= {}" modifies at, visited
      ensures "result : nodes & result ~: old visited & visited = old visited Un {result}" */
  { //: note some: "at ~= null";
    Node n = at; at = n.next;
    //: visited := "visited Un {n}";
    return n; }
  public static void visitAll() /*: modifies at, visited ensures "visited = nodes" */
  { start(); boolean b = hasNext();
    while /*: inv b: "~ ~ (b = (todo ~= {}))" inv part: "part" inv shape: "shape" */ (b) {
      //: note some: "todo ~= {}" from b, cond;
      next(); b = hasNext();
      //: note again: "~ ~ (b = (todo ~= {}))" from post;
    }
    //: note none: "todo = {}" from b, cond; note all: "visited = nodes" from none, part;
  }
}
