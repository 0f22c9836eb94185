class Node { Node next; }
class List {
  static Node first;
  /*: static specvar nodes :: objset;
      vardefs "nodes == {n. n ~= null & rtrancl_pt (% u v. u..Node.next = v) first n}";
      static ghost specvar seen :: objset; */
  static int count() /*: requires "tree [Node.next]" modifies seen ensures "result = card nodes" */
  { Node p = first; int k = 0;
    //: seen := "{}";
    while /*: inv all: "ALL n. (n : nodes) = (n : seen | n ~= null & rtrancl_pt (% u v. u..Node.next = v) p n)"
              inv apart: "ALL n. n : seen --> ~ rtrancl_pt (% u v. u..Node.next = v) p n | n = null"
              inv size: "k = card seen" */
    (p != null) {
      //: note unseen: "p ~: seen"; seen := "seen Un {p}";
      k = k + 1; p = p.next; }
    //: note done: "seen = nodes";
    return k; }
}
