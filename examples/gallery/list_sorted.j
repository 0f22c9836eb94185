// Inserts a number before the first node that is not smaller. That the list is sorted is not said.
class Node { int val; Node next; }
class Sorted {
  private static Node first;
  /*: public static specvar nodes :: objset;
      vardefs "nodes == {n. n ~= null & rtrancl_pt (% u v. u..Node.next = v) first n}";
      static specvar good :: bool;
      vardefs "good == ~ ~ (tree [Node.next] & (first = null | (ALL y. y..Node.next ~= first)))";
      invariant good: "good"; */
  static void link(Node p, Node n)
  /*: requires "good & n ~= null & n ~: nodes & n..Node.next = null & (ALL y. y..Node.next ~= n)
          & (p ~= null --> p : nodes)"
      modifies nodes
      ensures "nodes = old nodes Un {n} & good" */
  { if (p == null) { n.next = first; first = n; }
    else { Node s = p.next; p.next = n;
      //: note mid: "tree [Node.next]";
      n.next = s; }
    //: note t: "tree [Node.next]"; note r: "first = null | (ALL y. y..Node.next ~= first)";
  }
  static Node before(int k)
  /*: requires "first ~= null & first..Node.val < k"
      ensures "result : nodes & result..Node.val < k
              & (result..Node.next = null | k <= result..Node.next..Node.val)" */
  { Node p = first;
    while /*: inv in: "p : nodes" inv low: "p..Node.val < k" */ (p.next != null && p.next.val < k) { p = p.next; }
    return p; }
  public static Node insert(int k)
  /*: modifies nodes, Node.val ensures "result ~: old nodes & nodes = old nodes Un {result} & result..Node.val = k" */
  { Node n = new Node(); n.val = k;
    Node p = null;
    if (first != null && first.val < k) { p = before(k); }
    link(p, n);
    return n; }
}
