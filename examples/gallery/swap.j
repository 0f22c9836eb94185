// Swaps two statics, two fields of an object, and one field of two objects.
class Swap {
  static Object a;
  static Object b;
  public static void swap()
  /*: modifies a, b ensures "a = old b & b = old a" */
  { Object t = a; a = b; b = t; }
}
class Pair {
  Object fst; Object snd;
  public void swap()
  /*: modifies fst, snd ensures "fst = old snd & snd = old fst" */
  { Object t = fst; fst = snd; snd = t; }
  public static void exchange(Pair p, Pair q)
  /*: requires "p ~= null & q ~= null"
      modifies Pair.fst
      ensures "p..Pair.fst = old (q..Pair.fst) & q..Pair.fst = old (p..Pair.fst)" */
  { Object t = p.fst; p.fst = q.fst; q.fst = t; }
}
