class Meter {
  static int low; static int high; static int now;
  static void step(int k)
  /*: requires "0 <= k & k <= high - now & 0 <= low & low <= now & now <= high & high <= 100" modifies now
      ensures "low <= now & now <= high & 0 <= now" */
  { //: note up: "k <= high - now"; note add: "0 <= k"; note low: "low <= now"; note pos: "0 <= low";
    now = now + k;
    //: note a: "now <= high" from up; note b: "low <= now" from low, add; note c: "0 <= now" from b, pos;
  }
}
