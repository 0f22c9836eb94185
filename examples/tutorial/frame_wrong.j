class Pair {
  Object fst; Object snd;
  public void set(Object x)
  /*: modifies fst
      ensures "fst = x" */
  { fst = x; snd = x; }
}
