class Pair {
  Object fst; Object snd;
  public void set(Object x)
  /*: modifies fst, snd
      ensures "fst = x" */
  { fst = x; snd = x; }
}
