class Counter {
  int n;
  void inc() /*: modifies n ensures "n = old n + 1" */ { n = n + 1; }
}
