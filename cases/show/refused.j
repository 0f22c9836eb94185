class A {
  static int n;
  static void m()
  /*: ensures "n = 0"
      modifies n */
  { n = 0; }
}
