class Node { Object data; Node next; }
class Set {
  private static Node first; private static Object last;
  /*: public static specvar nodes :: objset;
      vardefs "nodes == {n. n ~= null & rtrancl_pt (% u v. u..Node.next = v) first n}";
      invariant shape: "tree [Node.next]";
      invariant once: "ALL m n. m : nodes & n : nodes & m..Node.data = n..Node.data --> m = n"; */
  static void log(Object x) /*: modifies last */ { last = x; }
  public static void three(Object x, Object y, Object z) /*: modifies last */ { log(x); log(y); log(z); }
}
