class Meter {
  static int low; static int high; static int now;
  static void step()
  /*: requires "0 <= low & low <= now & now < high" modifies now
      ensures "low <= now & now <= high & 0 <= now" */
  { now = now + 1; }
}
