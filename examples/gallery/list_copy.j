// Copies a list: the copy holds the same objects.
class Node { Object data; Node next; }
class List {
  private static Node first; private static Node other; private static Node at;
  /*: public static specvar content :: objset;
      vardefs "content == {x. EX n. n ~= null & rtrancl_pt (% u v. u..Node.next = v) first n & n..Node.data = x}";
      public static specvar copied :: objset;
      vardefs "copied == {x. EX n. n ~= null & rtrancl_pt (% u v. u..Node.next = v) other n & n..Node.data = x}";
      static specvar todo :: objset;
      vardefs "todo == {x. EX n. n ~= null & rtrancl_pt (% u v. u..Node.next = v) at n & n..Node.data = x}";
      static ghost specvar all :: objset;
      static specvar sum :: bool;
      vardefs "sum == ~ ~ (all = copied Un todo)";
      static specvar kept :: bool;
      vardefs "kept == ~ ~ (all = content)";
      static specvar shape :: bool;
      vardefs "shape == ~ ~ (tree [Node.next] & (other = null | (ALL y. y..Node.next ~= other)))";
      invariant shape: "shape"; */
  static Object step()
  /*: requires "at ~= null" modifies at ensures "~ ~ (old todo = todo Un {result})" */
  { Node n = at; at = n.next;
    //: note s: "old todo = todo Un {n..Node.data}";
    return n.data; }
  static Object advance()
  /*: requires "at ~= null & sum" modifies at ensures "~ ~ (all = copied Un todo Un {result})" */
  { Object x = step();
    //: note s: "all = copied Un todo Un {x}" from pre, post;
    return x; }
  static void cons(Object x)
  /*: requires "shape"
      modifies other, Node.next, Node.data
      ensures "~ ~ (copied = old copied Un {x}) & ~ ~ (todo = old todo) & ~ ~ (content = old content) & shape" */
  { Node n = new Node(); n.data = x; n.next = other; other = n;
    //: note t: "tree [Node.next]";
  }
  static void push(Object x)
  /*: requires "shape & kept & ~ ~ (all = copied Un todo Un {x})"
      modifies other, Node.next, Node.data
      ensures "shape & sum & kept" */
  { cons(x);
    //: note k1: "content = old content" from post; note k: "kept" from k1, pre;
    //: note a1: "copied = old copied Un {x} & todo = old todo" from post;
    //: note p: "all = old copied Un old todo Un {x}" from pre;
    //: note s1: "all = copied Un todo" from a1, p;
    //: note s: "sum" from s1;
  }
  public static void copy() /*: modifies other, at, all, Node.next, Node.data
          ensures "copied = content & content = old content" */
  { other = null; at = first;
    //: all := "content";
    while /*: inv shape: "shape" inv sum: "sum" inv kept: "kept" */ (at != null) { Object x = advance(); push(x); }
    //: note e: "todo = {}" from cond; note a: "all = copied" from e, sum; note b: "content = copied" from a, kept;
    //: note i: "all = old content";
  }
}
