class Swap {
  static Object a;
  static void clear() { a = 1; }
}
