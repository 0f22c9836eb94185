class Node { Node next; }
class List {
  private static Node first;
  /*: static specvar good :: bool;
      vardefs "good == ~ ~ (tree [Node.next] & (first = null | (ALL y. y..Node.next ~= first)))";
      invariant good: "good"; */
  public static void add(Node n)
  /*: requires "n ~= null & n..Node.next = null & (ALL y. y..Node.next ~= n)
        & ~ rtrancl_pt (% u v. u..Node.next = v) first n"
      modifies first, Node.next */
  { n.next = first; first = n;
  }
}
