// A set as a list without repeats, with its size.
class Node { Object data; Node next; }
class Set {
  private static Node first; private static int size;
  /*: public static specvar nodes :: objset;
      vardefs "nodes == {n. n ~= null & rtrancl_pt (% u v. u..Node.next = v) first n}";
      public static specvar content :: objset;
      vardefs "content == {x. EX n. n : nodes & n..Node.data = x}";
      static specvar shape :: bool;
      vardefs "shape == ~ ~ (tree [Node.next] & (first = null | (ALL y. y..Node.next ~= first)))";
      static specvar once :: bool;
      vardefs "once == ~ ~ (ALL m n. m : nodes & n : nodes & m..Node.data = n..Node.data --> m = n)";
      invariant shape: "shape"; invariant once: "once";
      invariant count: "card content = size"; */
  public static boolean member(Object x) /*: ensures "result = (x : content)" */
  { Node p = first;
    while /*: inv on: "p = null | p : nodes"
            inv rest: "(x : content) = (EX n. n ~= null & rtrancl_pt (% u v. u..Node.next = v) p n
            & n..Node.data = x)" */ (p != null) {
      if (p.data == x) { return true; }
      p = p.next; }
    return false; }
  static void insert(Object x)
  /*: requires "shape & once & x ~: content"
      modifies nodes, Node.data ensures "content = old content Un {x} & shape & once" */
  { Node n = new Node(); n.data = x; n.next = first; first = n;
    //: note t: "tree [Node.next]"; note r: "first = null | (ALL y. y..Node.next ~= first)";
  }
  public static void add(Object x)
  /*: modifies nodes, size, Node.data ensures "content = old content Un {x}" */
  { boolean b = member(x);
    if (!b) {
      //: note out: "x ~: content" from post, cond;
      insert(x);
      //: note grown: "content = old content Un {x}" from post;
      size = size + 1;
      //: note c: "card content = size" from grown, out, count;
    } else {
      //: note same: "content = old content Un {x}" from post, cond;
    } }
  public static int count() /*: ensures "result = card content" */ { return size; }
}
