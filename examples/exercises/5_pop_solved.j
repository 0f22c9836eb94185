class Node { Node next; }
class Stack {
  private static Node top;
  /*: public static specvar nodes :: objset;
      vardefs "nodes == {n. n ~= null & rtrancl_pt (% u v. u..Node.next = v) top n}";
      invariant shape: "tree [Node.next]";
      invariant root: "top = null | (ALL y. y..Node.next ~= top)"; */
  public static Node pop()
  /*: requires "top ~= null" modifies nodes
      ensures "result = old top & nodes = old nodes - {result} & result..Node.next = null" */
  { Node n = top; top = n.next; n.next = null; return n; }
}
