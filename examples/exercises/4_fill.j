// Write the invariants of the loop, and then the notes that the report asks for (docs/COOKBOOK.md, Numbers).
class Fill {
  static int n;
  static void down(int k)
  /*: requires "0 <= k" modifies n ensures "n = old n - k" */
  { int i = 0;
    while (i < k) { n = n - 1; i = i + 1; }
  }
}
