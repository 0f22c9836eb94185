// Write the body, so that the program is accepted.
class Max {
  static int of(int a, int b)
  /*: ensures "a <= result & b <= result & (result = a | result = b)" */
  { return a; }
}
