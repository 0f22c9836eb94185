class Node { Node next; }
class List {
  static Node first;
  static void m()
  /*: requires "first = null" ensures "card {n. n ~= null & rtrancl_pt (% u v. u..Node.next = v) first n} = 0" */
  { //: note none: "{n. n ~= null & rtrancl_pt (% u v. u..Node.next = v) first n} = {}";
  }
}
