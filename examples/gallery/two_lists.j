// Lists as objects: add, make, and move a node from one to another.
class Node { Object data; Node next; }
class List {
  Node first;
  /*: public specvar nodes :: objset;
      vardefs "nodes == {n. n ~= null & rtrancl_pt (% u v. u..Node.next = v) first n}";
      invariant shape: "tree [Node.next]";
      invariant root: "first = null | (ALL y. y..Node.next ~= first)";
      invariant apart: "ALL k l. k : List & l : List & k..List.first = l..List.first & k..List.first ~= null
              --> k = l"; */
  public Node add(Object x)
  /*: modifies List.first, Node.next, Node.data
      ensures "nodes = old nodes Un {result} & result ~: old alloc & result..Node.data = x
              & (ALL l. l : old List & l ~= this --> l..nodes = old (l..nodes))" */
  { Node n = new Node(); n.data = x; n.next = first; first = n; return n; }
  public static void move(List a, List b)
  /*: requires "a ~= null & b ~= null & a ~= b & a..List.first ~= null"
      modifies List.first, Node.next
      ensures "a..nodes = old (a..nodes) - {old (a..List.first)} & b..nodes = old (b..nodes)
              Un {old (a..List.first)}" */
  { Node n = a.first;
    //: note ra: "ALL y. y..Node.next ~= a..List.first";
    a.first = n.next; n.next = b.first; b.first = n; }
  public static List make() /*: ensures "result ~= null & result ~: old alloc & result..nodes = {}" */
  { List l = new List(); return l; }
}
