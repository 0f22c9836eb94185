// A pool of nodes that are taken and given back.
class Node { Object data; Node next; }
class Pool {
  private static Node free; private static int spareCount;
  /*: public static ghost specvar used :: objset;
      public static specvar spare :: objset;
      vardefs "spare == {x. x ~= null & rtrancl_pt (% u v. u..Node.next = v) free x}";
      invariant shape: "tree [Node.next]";
      invariant root: "free = null | (ALL y. y..Node.next ~= free)";
      invariant apart: "spare Int used = {}";
      invariant solo: "ALL x. x : used --> x ~= null & x : Node & x..Node.next = null
              & (ALL y. y..Node.next ~= x)"; */
  public static Node take()
  /*: modifies spare, Node.data, used
      ensures "result : used & result ~: old used & used = old used Un {result} & result..Node.data = null" */
  { Node n = free;
    if (n == null) { n = new Node(); }
    else { free = n.next; n.next = null; n.data = null; }
    //: used := "used Un {n}";
    return n; }
  public static void give(Node n)
  /*: requires "n : used" modifies spare, used
      ensures "used = old used - {n} & spare = old spare Un {n}" */
  { n.next = free; free = n;
    //: used := "used - {n}";
  }
}
