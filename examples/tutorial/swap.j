class Swap {
  static Object a;
  static Object b;
  public static void swap()
  /*: modifies a, b
      ensures "a = old b & b = old a" */
  { Object t = a; a = b; b = t; }
}
