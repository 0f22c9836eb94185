// The body is right. Write the specification: a holds what b held, b what c held, c what a held.
class Three {
  static Object a; static Object b; static Object c;
  public static void turn()
  { Object t = a; a = b; b = c; c = t; }
}
