class Node { int val; Node next; }
class Sorted {
  static Node first;
  static void set(int k)
  /*: requires "first ~= null & (ALL x. x ~= null --> x..Node.val <= k)"
      ensures "first..Node.val <= k" */
  { }
}
