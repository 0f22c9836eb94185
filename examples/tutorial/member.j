class Node { Object data; Node next; }
class Set {
  static Node first;
  /*: static specvar content :: objset;
      vardefs "content == {x. EX n. n ~= null & rtrancl_pt (% u v. u..Node.next = v) first n & n..Node.data = x}"; */
  static boolean member(Object x) /*: ensures "result = (x : content)" */
  { Node p = first;
    while /*: inv rest: "(x : content)
      = (EX n. n ~= null & rtrancl_pt (% u v. u..Node.next = v) p n & n..Node.data = x)" */ (p != null) {
      if (p.data == x) { return true; }
      p = p.next; }
    return false; }
}
