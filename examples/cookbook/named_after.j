class Node { Node next; }
class List {
  Node first;
  /*: invariant root: "first = null | (ALL y. y..Node.next ~= first)";
      invariant apart: "ALL k l. k : List & l : List & k..List.first = l..List.first & k..List.first ~= null
        --> k = l"; */
  public static void move(List a, List b)
  /*: requires "a ~= null & b ~= null & a ~= b & a..List.first ~= null & tree [Node.next]"
      modifies List.first, Node.next ensures "tree [Node.next]" */
  { Node n = a.first;
    //: note top: "ALL y. y..Node.next ~= n";
    a.first = n.next; n.next = b.first; b.first = n; }
}
