class Cell { int f; }
class Two {
  static void both(Cell a, Cell b)
  /*: requires "a ~= null & b ~= null"
      modifies Cell.f
      ensures "a..Cell.f = 1 & b..Cell.f = 2" */
  { a.f = 1; b.f = 2; }
}
