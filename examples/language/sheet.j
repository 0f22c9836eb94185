class Node { Object data; Node next; }
class List {
  private static Node first; static int size;
  /*: public static ghost specvar seen :: objset;
      public static specvar nodes :: objset;
      vardefs "nodes == {n. n ~= null & rtrancl_pt (% u v. u..Node.next = v) first n}";
      invariant shape: "tree [Node.next]"; */
  public static int count()
  /*: requires "True"
      modifies seen
      ensures "0 <= result" */
  { Node p = first; int k = 0;
    //: seen := "{}";
    while /*: inv low: "0 <= k" inv on: "p = null | p : nodes" */ (p != null) {
      //: assert "p ~= null"; note here: "p : nodes"; note again: "p ~= null | p : nodes" from here;
      k = k + 1; p = p.next;
    }
    return k; }
}
