// Joins two lists that are sets, node by node.
class Node { Object data; Node next; }
class Sets {
  private static Node a; private static Node b;
  /*: public static ghost specvar all :: objset;
      public static specvar na :: objset;
      vardefs "na == {n. n ~= null & rtrancl_pt (% u v. u..Node.next = v) a n}";
      public static specvar nb :: objset;
      vardefs "nb == {n. n ~= null & rtrancl_pt (% u v. u..Node.next = v) b n}";
      public static specvar ca :: objset;
      vardefs "ca == {x. EX n. n : na & n..Node.data = x}";
      public static specvar cb :: objset;
      vardefs "cb == {x. EX n. n : nb & n..Node.data = x}";
      static specvar good :: bool;
      vardefs "good == ~ ~ (tree [Node.next] & (a = null | (ALL y. y..Node.next ~= a))
              & (b = null | (ALL y. y..Node.next ~= b)) & (a = null | a ~= b))";
      static specvar same :: bool;
      vardefs "same == ~ ~ (all = na Un nb)";
      invariant good: "good"; */
  static void move()
  /*: requires "good & same & b ~= null" modifies a, b, Node.next
      ensures "good & same" */
  { Node n = b; b = n.next; n.next = a; a = n;
    //: note t: "tree [Node.next]"; note r: "a = null | (ALL y. y..Node.next ~= a)";
    //: note r2: "(b = null | (ALL y. y..Node.next ~= b)) & (a = null | a ~= b)";
  }
  static void moveAll()
  /*: requires "good & same" modifies a, b, Node.next ensures "good & same & b = null" */
  { while /*: inv g: "good" inv s: "same" */ (b != null) { move(); } }
  public static void addAll()
  /*: modifies a, b, Node.next, all ensures "ca = old (ca Un cb) & cb = {}" */
  { //: all := "na Un nb";
    moveAll();
    //: note e: "b = null" from post; note f: "na = all" from post, e;
    //: note h: "cb = {}" from e; note i: "all = old (na Un nb)"; note f2: "na = old (na Un nb)" from f, i;
    //: note g1: "ca <= old (ca Un cb)" from f2; note g2: "old (ca Un cb) <= ca" from f2;
    //: note g: "ca = old (ca Un cb)" from g1, g2;
  }
}
