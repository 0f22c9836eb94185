class Fill {
  static int n;
  static void down(int k)
  /*: requires "0 <= k" modifies n ensures "n = old n - k" */
  { int i = 0;
    while /*: inv up: "i <= k" inv sum: "n = old n - i" */ (i < k) {
      n = n - 1; i = i + 1;
      //: note up2: "i <= k" from cond; note sum2: "n = old n - i" from sum;
    }
    //: note end: "i = k" from up, cond; note all: "n = old n - k" from end, sum;
  }
}
