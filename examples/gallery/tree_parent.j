// A tree with the way back up.
class Tnode { Tnode left; Tnode right; Tnode parent; }
class Tree {
  private static Tnode root;
  /*: public static specvar content :: objset;
      vardefs "content == {x. x ~= null & rtrancl_pt (% u v. u..Tnode.left = v | u..Tnode.right = v) root x}";
      static specvar shape :: bool;
      vardefs "shape == ~ ~ (tree [Tnode.left, Tnode.right]
              & (root = null | (ALL y. y..Tnode.left ~= root & y..Tnode.right ~= root)))";
      static specvar up :: bool;
      vardefs "up == ~ ~ (ALL x. (x..Tnode.left = null | x..Tnode.left..Tnode.parent = x)
              & (x..Tnode.right = null | x..Tnode.right..Tnode.parent = x)
              & (x..Tnode.parent = null | x..Tnode.parent..Tnode.left = x | x..Tnode.parent..Tnode.right = x))";
      invariant shape: "shape"; invariant up: "up"; */
  static void link(Tnode p, Tnode n)
  /*: requires "shape & p : content & p..Tnode.left = null & n ~= null & n ~: content & n..Tnode.left = null
          & n..Tnode.right = null & (ALL y. y..Tnode.left ~= n & y..Tnode.right ~= n)"
      modifies Tnode.left
      ensures "content = old content Un {n} & shape & p..Tnode.left = n
              & ~ ~ (ALL y. y = p | y..Tnode.left = old (y..Tnode.left))" */
  { p.left = n;
    //: note t: "tree [Tnode.left, Tnode.right]";
    //: note r: "root = null | (ALL y. y..Tnode.left ~= root & y..Tnode.right ~= root)" from pre;
    //: note s: "shape" from t, r; note f: "~ ~ (ALL y. y = p | y..Tnode.left = old (y..Tnode.left))" from cond;
  }
  public static void addLeft(Tnode p, Tnode n)
  /*: requires "p : content & p..Tnode.left = null & n ~= null & n ~: content & n..Tnode.left = null
          & n..Tnode.right = null & n..Tnode.parent = null & (ALL y. y..Tnode.left ~= n & y..Tnode.right ~= n)"
      modifies content, Tnode.parent ensures "content = old content Un {n}" */
  { /*: note pn: "p ~= null & n ~= null & p ~= n & p..Tnode.left = null & n..Tnode.left = null
          & n..Tnode.right = null & n..Tnode.parent = null"; */
    //: note q: "ALL y. y..Tnode.left ~= n & y..Tnode.right ~= n" from pre;
    link(p, n);
    //: note f: "~ ~ (ALL y. y = p | y..Tnode.left = old (y..Tnode.left))"; note g: "p..Tnode.left = n";
    n.parent = p;
    //: note h: "up" from up, pn, q, f, g;
  }
  public static Tnode above(Tnode n)
  /*: requires "n : content" ensures "result = null | result..Tnode.left = n | result..Tnode.right = n" */
  { return n.parent; }
}
