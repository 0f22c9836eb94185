class Counter {
  private int n;
  /*: invariant low: "0 <= n"; */
  public int back()
  /*: modifies n
      ensures "n = old n - 1 & result = n" */
  {
    int i = 0;
    while /*: inv "True" */ (i < 1) { n = n - 1; i = i + 1; }
    return n;
  }
  public void stay()
  { Counter c = new Counter(); c.n = 4; }
  public void touch(Counter c)
  /*: requires "c ~= null" */
  { c.n = 5; }
}
