class Sum {
  static int n;
  static void fill(int k)
  /*: requires "0 <= k" modifies n ensures "n = k" */
  { n = 0;
    while (n < k) { n = n + 1; }
  }
}
