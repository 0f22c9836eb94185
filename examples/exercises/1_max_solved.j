class Max {
  static int of(int a, int b)
  /*: ensures "a <= result & b <= result & (result = a | result = b)" */
  { if (a < b) { return b; }
    return a; }
}
