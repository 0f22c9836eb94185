class Counter {
  int n;
  static int plus(int a, int b) /*: ensures "result = a + b" */ { return a + b; }
  void inc() /*: modifies n ensures "n = old n + 1" */
  { int m = plus(n, 1); n = m;
    //: note set: "n = m";
  }
}
