// A list of keys and values, each key once.
class Entry { Object key; Object value; Entry next; }
class Map {
  private static Entry first;
  /*: public static specvar entries :: objset;
      vardefs "entries == {e. e ~= null & rtrancl_pt (% u v. u..Entry.next = v) first e}";
      public static specvar keys :: objset;
      vardefs "keys == {k. EX e. e : entries & e..Entry.key = k}";
      static specvar shape :: bool;
      vardefs "shape == ~ ~ (tree [Entry.next] & (first = null | (ALL y. y..Entry.next ~= first)))";
      static specvar once :: bool;
      vardefs "once == ~ ~ (ALL d e. d : entries & e : entries & d..Entry.key = e..Entry.key --> d = e)";
      invariant shape: "shape"; invariant once: "once"; */
  static Entry find(Object k)
  /*: ensures "(result = null --> k ~: keys)
          & (result ~= null --> k : keys & result : entries & result..Entry.key = k)" */
  { Entry p = first;
    while /*: inv on: "p = null | p : entries"
              inv rest: "ALL e. e : entries & e..Entry.key = k
                      --> rtrancl_pt (% u v. u..Entry.next = v) p e" */ (p != null) {
      if (p.key == k) { return p; }
      p = p.next; }
    return null; }
  public static Object get(Object k)
  /*: ensures "(k : keys --> (EX e. e : entries & e..Entry.key = k & e..Entry.value = result))
          & (k ~: keys --> result = null)" */
  { Entry e = find(k);
    if (e == null) { return null; }
    return e.value; }
  static Entry add(Object k, Object w)
  /*: requires "k ~: keys & shape & once"
      modifies entries, Entry.key, Entry.value
      ensures "keys = old keys Un {k} & shape & once & result : entries & result..Entry.key = k
              & result..Entry.value = w" */
  { Entry e = new Entry(); e.key = k; e.value = w; e.next = first; first = e;
    //: note t: "tree [Entry.next]"; note r: "first = null | (ALL y. y..Entry.next ~= first)";
    return e; }
  public static Entry put(Object k, Object w)
  /*: modifies entries, Entry.key, Entry.value
      ensures "keys = old keys Un {k} & result : entries & result..Entry.key = k & result..Entry.value = w" */
  { Entry e = find(k);
    if (e == null) { e = add(k, w); } else { e.value = w;
       //: note v: "e..Entry.value = w" from cond; note key: "e..Entry.key = k" from post, cond;
       //: note same: "keys = old keys Un {k}";
    }
    return e; }
}
