// A doubly linked list: in front of it, into its middle and out of it.
class Node { Node next; Node prev; }
class List {
  private static Node first;
  /*: public static specvar content :: objset;
      vardefs "content == {x. x ~= null & rtrancl_pt (% u v. u..Node.next = v) first x}";
      static specvar good :: bool;
      vardefs "good == ~ ~ (tree [Node.next] & (first = null | (ALL y. y..Node.next ~= first)))";
      static specvar back :: bool;
      vardefs "back == ~ ~ (ALL x. (x..Node.next = null | x..Node.next..Node.prev = x)
              & (x..Node.prev = null | x..Node.prev..Node.next = x))";
      invariant good: "good"; invariant back: "back"; */
  public static void addFirst(Node n)
  /*: requires "n ~= null & n ~: content & n..Node.next = null & n..Node.prev = null & (ALL y. y..Node.next ~= n)"
      modifies content, Node.prev ensures "content = old content Un {n}" */
  { n.next = first; if (first != null) { first.prev = n; } first = n;
    //: note t: "tree [Node.next]"; note r: "first = null | (ALL y. y..Node.next ~= first)";
  }
  static void hang(Node p, Node n)
  /*: requires "p : content & n ~= null & n ~: content & n..Node.next = null & (ALL y. y..Node.next ~= n) & good"
      modifies Node.next
      ensures "content = old content Un {n} & good & p..Node.next = n & n..Node.next = old (p..Node.next)
              & ~ ~ (ALL x. x = n | x = p | x..Node.next = old (x..Node.next))" */
  { Node s = p.next;
    p.next = n;
    //: note mid: "tree [Node.next]";
    n.next = s;
    //: note t: "tree [Node.next]"; note r: "first = null | (ALL y. y..Node.next ~= first)"; note g: "good" from t, r;
    //: note f: "~ ~ (ALL x. x = n | x = p | x..Node.next = old (x..Node.next))" from t;
  }
  static void tie(Node p, Node n, Node s)
  /*: requires "p ~= null & n ~= null & p ~= n & p ~= s & n ~= s & p..Node.next = n & n..Node.next = s
        & ~ ~ (ALL x. x = n | x = p | x..Node.next = null | x..Node.next..Node.prev = x)
        & ~ ~ (ALL x. x = s | x = n | x..Node.prev = null | x..Node.prev..Node.next = x)
        & ~ ~ (ALL y. y = n | y..Node.next ~= s | s = null)
        & ~ ~ (ALL y. y = p | y..Node.next ~= n)"
      modifies Node.prev ensures "back" */
  { n.prev = p;
    if (s != null) { s.prev = n; }
  }
  public static void insertAfter(Node p, Node n)
  /*: requires "p : content & n ~= null & n ~: content & n..Node.next = null & (ALL y. y..Node.next ~= n)"
      modifies content, Node.prev ensures "content = old content Un {n}" */
  { Node s = p.next;
    //: note v: "p ~= null & n ~= null & p ~= n & p ~= s & n ~= s & n..Node.next = null";
    //: note a: "ALL y. y..Node.next ~= n" from pre; note w: "ALL y. y = p | y..Node.next ~= s | s = null";
    //: note ps: "p..Node.next = s";
    hang(p, n);
    //: note f: "~ ~ (ALL x. x = n | x = p | x..Node.next = old (x..Node.next))";
    //: note z: "p..Node.next = n & n..Node.next = s";
    //: note q: "ALL x. x = n | x = p | x..Node.next = null | x..Node.next..Node.prev = x" from back, f, z, v;
    //: note qq: "~ ~ (ALL x. x = n | x = p | x..Node.next = null | x..Node.next..Node.prev = x)" from q;
    //: note u: "ALL x. x = s | x = n | x..Node.prev = null | x..Node.prev..Node.next = x" from back, f, z, v, ps, a;
    //: note uu: "~ ~ (ALL x. x = s | x = n | x..Node.prev = null | x..Node.prev..Node.next = x)" from u;
    //: note r: "ALL y. y = n | y..Node.next ~= s | s = null" from w, f, z, v;
    //: note rr: "~ ~ (ALL y. y = n | y..Node.next ~= s | s = null)" from r;
    //: note o: "ALL y. y = p | y..Node.next ~= n" from a, f, z, v;
    //: note oo: "~ ~ (ALL y. y = p | y..Node.next ~= n)" from o;
    tie(p, n, s); }
  static void cut(Node b, Node n)
  /*: requires "n : content & (b = null --> n = first) & (b ~= null --> b : content & b..Node.next = n) & good"
      modifies content
      ensures "content = old content - {n} & good & n..Node.next = null
              & (b = null | b..Node.next = old (n..Node.next))
              & ~ ~ (ALL x. x = n | x = b | x..Node.next = old (x..Node.next)) & ~ ~ (ALL y. y..Node.next ~= n)" */
  { Node t = n.next;
    n.next = null;
    //: note mid: "tree [Node.next]";
    if (b == null) { first = t; } else { b.next = t; }
    //: note t: "tree [Node.next]"; note r: "first = null | (ALL y. y..Node.next ~= first)"; note g: "good" from t, r;
    //: note f: "~ ~ (ALL x. x = n | x = b | x..Node.next = old (x..Node.next))" from cond;
    //: note z: "~ ~ (ALL y. y..Node.next ~= n)" from cond, pre, good;
  }
  static Node before(Node n)
  /*: requires "n : content & good & back"
      ensures "result = n..Node.prev & (result = null --> n = first)
              & (result ~= null --> result : content & result..Node.next = n)" */
  { return n.prev; }
  static void fix(Node b, Node n, Node s)
  /*: requires "n ~= null & n ~= b & n ~= s & n..Node.next = null & (b = null | b..Node.next = s)
        & ~ ~ (ALL x. x = n | x = b | x..Node.next = null | x..Node.next..Node.prev = x)
        & ~ ~ (ALL x. x = s | x = n | x..Node.prev = null | x..Node.prev..Node.next = x)
        & ~ ~ (ALL y. y = b | y..Node.next ~= s | s = null)
        & ~ ~ (ALL y. y..Node.next ~= n)"
      modifies Node.prev ensures "back" */
  { n.prev = null;
    if (s != null) { s.prev = b; }
  }
  public static void unlink(Node n)
  /*: requires "n : content" modifies content, Node.prev ensures "content = old content - {n}" */
  { Node s = n.next; Node b = before(n);
    //: note bn: "b = null | b..Node.next = n";
    //: note w: "s = null | s ~= n & s..Node.prev = n";
    //: note v: "n ~= null & n ~= b & n ~= s";
    cut(b, n);
    //: note f: "~ ~ (ALL x. x = n | x = b | x..Node.next = old (x..Node.next))";
    //: note z: "n..Node.next = null & (b = null | b..Node.next = s)"; note u: "~ ~ (ALL y. y..Node.next ~= n)";
    //: note p: "(ALL x. x = n | x = b | x..Node.next = null | x..Node.next..Node.prev = x)" from back, f, z;
    //: note pp: "~ ~ (ALL x. x = n | x = b | x..Node.next = null | x..Node.next..Node.prev = x)" from p;
    //: note q: "(ALL x. x = s | x = n | x..Node.prev = null | x..Node.prev..Node.next = x)" from back, f, z, w, v, bn;
    //: note qq: "~ ~ (ALL x. x = s | x = n | x..Node.prev = null | x..Node.prev..Node.next = x)" from q;
    //: note r: "(ALL y. y = b | y..Node.next ~= s | s = null)" from good, f, z, v;
    //: note rr: "~ ~ (ALL y. y = b | y..Node.next ~= s | s = null)" from r;
    fix(b, n, s); }
}
