class Count {
  static int n;
  static void inc() /*: modifies n ensures "n = old n + 1" */ { n = n + 1; }
  static void twice() /*: modifies n ensures "n = old n + 2" */ { inc(); inc(); }
}
