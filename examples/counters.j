// Counts what is in a set, and moves between two: proved by sizes and linear arithmetic alone.
class Counters {
  /*: public static ghost specvar free :: objset;
      public static ghost specvar taken :: objset;
      invariant apart: "free Int taken = {}"; */
  static int spare;
  static int used;
  /*: invariant spares: "card free = spare";
      invariant uses: "card taken = used"; */

  public static void take(Object x)
  /*: requires "x : free"
      modifies free, taken, spare, used
      ensures "x : taken & taken = old taken Un {x} & card taken = card (old taken) + 1" */
  {
    spare = spare - 1;
    used = used + 1;
    /*: free := "free - {x}";
        taken := "taken Un {x}"; */
  }
}
