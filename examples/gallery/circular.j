// A ring, whose nodes are a ghost set that `next` never leaves.
class Node { Object data; Node next; }
class Ring {
  private static Node entry;
  /*: public static ghost specvar nodes :: objset;
      invariant none: "(entry = null) = (nodes = {})";
      invariant in: "entry ~= null --> entry : nodes";
      invariant closed: "ALL n. n : nodes --> n ~= null & n : Node & n..Node.next : nodes";
      invariant onto: "ALL m n. m : nodes & n : nodes & m..Node.next = n..Node.next --> m = n"; */
  public static Node insert(Object x)
  /*: modifies nodes, Node.next, entry
          ensures "result ~: old nodes & nodes = old nodes Un {result} & result..Node.data = x" */
  { Node n = new Node(); n.data = x;
    if (entry == null) { n.next = n; entry = n; }
    else { n.next = entry.next; entry.next = n; }
    //: nodes := "nodes Un {n}";
    return n; }
  public static void step() /*: modifies entry ensures "True" */
  { if (entry != null) { entry = entry.next; } }
  public static boolean isEmpty() /*: ensures "result = (nodes = {})" */ { return entry == null; }
}
class Cyc {
  private static Node e;
  /*: public static specvar ring :: objset;
      vardefs "ring == {n. n ~= null & rtrancl_pt (% u v. u..Node.next = v) e n}"; */
  static void step()
  /*: requires "~ ~ (ALL n. n : ring --> rtrancl_pt (% u v. u..Node.next = v) n e) & e ~= null"
      modifies e ensures "~ ~ (ALL n. n : ring --> rtrancl_pt (% u v. u..Node.next = v) n e)" */
  { e = e.next; }
}
