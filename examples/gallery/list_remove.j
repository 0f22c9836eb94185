// Removes an object from a list, if it is there.
class Node { Object data; Node next; }
class List {
  private static Node first;
  /*: public static specvar nodes :: objset;
      vardefs "nodes == {n. n ~= null & rtrancl_pt (% u v. u..Node.next = v) first n}";
      public static specvar content :: objset;
      vardefs "content == {x. EX n. n : nodes & n..Node.data = x}";
      static specvar good :: bool;
      vardefs "good == ~ ~ (tree [Node.next] & (first = null | (ALL y. y..Node.next ~= first)))";
      invariant good: "good"; */
  static void unlink(Node b, Node p)
  /*: requires "p : nodes & (b = null --> p = first) & (b ~= null --> b : nodes & b..Node.next = p) & good"
      modifies nodes
      ensures "nodes = old nodes - {p} & good" */
  { Node t = p.next;
    p.next = null;
    //: note cut: "tree [Node.next]";
    if (b == null) { first = t; } else { b.next = t; }
    //: note s: "tree [Node.next]";
    //: note r: "first = null | (ALL y. y..Node.next ~= first)";
    //: note g: "good" from s, r;
  }
  static Node find(Object x)
  /*: ensures "(result = null --> x ~: content) & (result ~= null --> result : nodes & result..Node.data = x)" */
  { Node p = first;
    while /*: inv on: "p = null | p : nodes"
            inv rest: "ALL n. n : nodes & n..Node.data = x
            --> rtrancl_pt (% u v. u..Node.next = v) p n" */ (p != null) {
      if (p.data == x) { return p; }
      p = p.next; }
    return null; }
  static Node before(Node p)
  /*: requires "p : nodes"
      ensures "(result = null --> p = first) & (result ~= null --> result : nodes & result..Node.next = p)" */
  { if (p == first) { return null; }
    Node b = first;
    while /*: inv there: "b : nodes" inv ahead: "rtrancl_pt (% u v. u..Node.next = v) b p"
            inv apart: "b ~= p" */ (b.next != p) { b = b.next; }
    return b; }
  static void cut(Node b, Node p, Object x)
  /*: requires "p : nodes & p..Node.data = x & (b = null --> p = first)
          & (b ~= null --> b : nodes & b..Node.next = p) & good"
      modifies nodes
      ensures "good & ~ ~ (ALL y. y ~: old content | y = x | y : content)" */
  { unlink(b, p);
    //: note less: "nodes = old nodes - {p}"; note d: "p..Node.data = x";
    //: note kept: "ALL y. y ~: old content | y = x | y : content" from less, d;
    //: note fin: "~ ~ (ALL y. y ~: old content | y = x | y : content)" from kept;
  }
  static void rest(Node p, Object x)
  /*: requires "p : nodes & p..Node.data = x & good"
      modifies nodes
      ensures "good & ~ ~ (ALL y. y ~: old content | y = x | y : content)" */
  { Node b = before(p); cut(b, p, x); }
  public static boolean remove(Object x)
  /*: modifies nodes
      ensures "~ ~ (ALL y. y ~: old content | y = x | y : content)" */
  { Node p = find(x);
    if (p == null) { return false; }
    rest(p, x);
    return true; }
}
