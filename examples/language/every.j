class Counter {
  int n;
  /*: invariant even: "2 dvd n"; */
}
class Other {
  public static void spoil(Counter c) /*: requires "c ~= null" modifies Counter.n */ { c.n = 1; }
  static void quiet(Counter c) /*: requires "c ~= null" modifies Counter.n */ { c.n = 1; }
}
