class Node { Object data; Node next; }
class List {
  private static Node first;
  /*: public static specvar nodes :: objset;
      vardefs "nodes == {n. n ~= null & rtrancl_pt (% u v. u..Node.next = v) first n}";
      public static specvar content :: objset;
      vardefs "content == {x. EX n. n ~= null & rtrancl_pt (% u v. u..Node.next = v) first n & n..Node.data = x}";
      invariant shape: "tree [Node.next]";
      invariant root: "first = null | (ALL y. y..Node.next ~= first)"; */

  public static void reverse() /*: modifies nodes ensures "nodes = old nodes & content = old content" */
  { Node p = first; Node r = null;
    while /*: inv forest: "tree [Node.next]"
              inv proot: "p = null | (ALL y. y..Node.next ~= p)"
              inv rroot: "r = null | (ALL y. y..Node.next ~= r)"
              inv apart: "p = null | p ~= r"
              inv same: "old nodes = {x. x ~= null
                & (rtrancl_pt (% u v. u..Node.next = v) p x | rtrancl_pt (% u v. u..Node.next = v) r x)}" */
    (p != null) { Node t = p.next; p.next = r; r = p; p = t; }
    first = r; }
}
