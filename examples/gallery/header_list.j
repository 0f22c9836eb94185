// A list with a header node that is never removed.
class Node { Object data; Node next; }
class List {
  private static Node head;
  /*: public static specvar nodes :: objset;
      vardefs "nodes == {n. n ~= null & n ~= head & rtrancl_pt (% u v. u..Node.next = v) head n}";
      static specvar good :: bool;
      vardefs "good == ~ ~ (head ~= null & tree [Node.next] & (ALL y. y..Node.next ~= head))";
      invariant good: "good"; */
  static void link(Node p, Node n)
  /*: requires "good & p ~= null & rtrancl_pt (% u v. u..Node.next = v) head p & n ~= null & n ~= head
          & n ~: nodes & n..Node.next = null & (ALL y. y..Node.next ~= n)"
      modifies nodes ensures "nodes = old nodes Un {n} & good" */
  { Node s = p.next;
    p.next = n;
    //: note mid: "tree [Node.next]";
    n.next = s;
    //: note t: "tree [Node.next]"; note r: "head ~= null & (ALL y. y..Node.next ~= head)";
  }
  public static void add(Object x)
  /*: modifies nodes, Node.data ensures "EX n. n ~: old nodes & nodes = old nodes Un {n} & n..Node.data = x" */
  { Node n = new Node(); n.data = x;
    link(head, n);
    //: note added: "n ~: old nodes & nodes = old nodes Un {n} & n..Node.data = x";
  }
  static Node before(Node n)
  /*: requires "n : nodes & good"
      ensures "result ~= null & rtrancl_pt (% u v. u..Node.next = v) head result & result..Node.next = n" */
  { Node p = head;
    while /*: inv on: "p ~= null & rtrancl_pt (% u v. u..Node.next = v) head p"
              inv ahead: "rtrancl_pt (% u v. u..Node.next = v) p n"
              inv apart: "p ~= n" */ (p.next != n) { p = p.next; }
    return p; }
  static void unlink(Node p, Node n)
  /*: requires "n : nodes & good & p ~= null & rtrancl_pt (% u v. u..Node.next = v) head p & p..Node.next = n"
      modifies nodes ensures "nodes = old nodes - {n} & good" */
  { Node s = n.next;
    n.next = null;
    //: note cut: "tree [Node.next]";
    p.next = s;
    //: note t: "tree [Node.next]"; note r: "head ~= null & (ALL y. y..Node.next ~= head)";
  }
  public static void remove(Node n)
  /*: requires "n : nodes" modifies nodes ensures "nodes = old nodes - {n}" */
  { Node p = before(n); unlink(p, n); }
  public static boolean isEmpty() /*: ensures "result = (nodes = {})" */
  { //: note h: "head..Node.next = null | head..Node.next : nodes";
    return head.next == null; }
}
