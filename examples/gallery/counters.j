// A counter as a field of each object, with a loop.
class Counter {
  private int n;
  static int plus(int a, int b) /*: ensures "result = a + b" */ { return a + b; }
  public void inc()
  /*: requires "0 <= n" modifies n ensures "n = old n + 1 & 0 <= n" */
  { int m = plus(n, 1); n = m; //: note set: "n = m";
  }
  public void dec()
  /*: requires "0 < n" modifies n ensures "n = old n - 1 & 0 <= n" */
  { int m = plus(n, -1); n = m; //: note set: "n = m";
  }
  public int get() /*: ensures "result = n" */ { return n; }
  public void add(int k)
  /*: requires "0 <= k" modifies n ensures "n = old n + k" */
  { int i = 0;
    while /*: inv low: "0 <= i" inv up: "i <= k" inv sum: "n = old n + i"
            inv others: "ALL c. c ~= this --> c..Counter.n = old (c..Counter.n)" */ (i < k) {
      int m = plus(n, 1);
      n = m;
      //: note set: "n = m";
      i = i + 1;
      //: note sum2: "n = old n + i" from set, sum, post;
      //: note low2: "0 <= i" from low; note up2: "i <= k" from cond;
    }
    //: note end: "i = k" from up, cond; note total: "n = old n + k" from end, sum;
  }
}
