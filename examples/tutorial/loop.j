class Sum {
  static int n;
  static void fill(int k)
  /*: requires "0 <= k" modifies n ensures "n = k" */
  { n = 0;
    while /*: inv "n <= k" */ (n < k) { n = n + 1; }
  }
}
