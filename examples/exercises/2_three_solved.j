class Three {
  static Object a; static Object b; static Object c;
  public static void turn()
  /*: modifies a, b, c ensures "a = old b & b = old c & c = old a" */
  { Object t = a; a = b; b = c; c = t; }
}
