// Rotates a tree to the right. NOT ACCEPTED: three lines are open.
class Tnode { Tnode left; Tnode right; }
class Tree {
  private static Tnode root;
  /*: static specvar forest :: bool;
      vardefs "forest == ~ ~ tree [Tnode.left, Tnode.right]";
      static specvar top :: bool;
      vardefs "top == ~ ~ (root = null | (ALL y. y..Tnode.left ~= root & y..Tnode.right ~= root))";
      invariant forest: "forest"; invariant top: "top"; */
  static void clearLeft(Tnode x)
  /*: requires "forest & x ~= null" modifies Tnode.left
      ensures "forest & x..Tnode.left = null & ~ ~ (ALL y. y = x | y..Tnode.left = old (y..Tnode.left))" */
  { x.left = null; //: note t: "tree [Tnode.left, Tnode.right]";
  }
  static void clearRight(Tnode x)
  /*: requires "forest & x ~= null" modifies Tnode.right
      ensures "forest & x..Tnode.right = null & ~ ~ (ALL y. y = x | y..Tnode.right = old (y..Tnode.right))" */
  { x.right = null; //: note t: "tree [Tnode.left, Tnode.right]";
  }
  static void setLeft(Tnode x, Tnode m)
  /*: requires "forest & x ~= null & x..Tnode.left = null
          & (m = null | ~ rtrancl_pt (% u v. u..Tnode.left = v | u..Tnode.right = v) m x)
          & ~ ~ (m = null | (ALL y. y..Tnode.left ~= m & y..Tnode.right ~= m))"
      modifies Tnode.left
      ensures "forest & x..Tnode.left = m & ~ ~ (ALL y. y = x | y..Tnode.left = old (y..Tnode.left))" */
  { x.left = m; //: note t: "tree [Tnode.left, Tnode.right]";
  }
  static void setRight(Tnode x, Tnode m)
  /*: requires "forest & x ~= null & x..Tnode.right = null
          & (m = null | ~ rtrancl_pt (% u v. u..Tnode.left = v | u..Tnode.right = v) m x)
          & ~ ~ (m = null | (ALL y. y..Tnode.left ~= m & y..Tnode.right ~= m))"
      modifies Tnode.right
      ensures "forest & x..Tnode.right = m & ~ ~ (ALL y. y = x | y..Tnode.right = old (y..Tnode.right))" */
  { x.right = m; //: note t: "tree [Tnode.left, Tnode.right]";
  }
  public static void rotateRight()
  /*: requires "root ~= null & root..Tnode.left ~= null" modifies root, Tnode.left, Tnode.right
      ensures "root = old (root..Tnode.left) & root..Tnode.right = old root
              & old root..Tnode.left = old (root..Tnode.left..Tnode.right)" */
  { Tnode r = root; Tnode t = r.left; Tnode m = t.right;
    //: note nn: "r ~= null & t ~= null & r ~= t & m ~= r & m ~= t";
    //: note pr: "ALL y. y..Tnode.left ~= r & y..Tnode.right ~= r" from top, nn;
    //: note pt: "ALL y. (y = r | y..Tnode.left ~= t) & y..Tnode.right ~= t";
    //: note pm: "m = null | (ALL y. y..Tnode.left ~= m & (y = t | y..Tnode.right ~= m))";
    r.left = null;
    //: note s1: "tree [Tnode.left, Tnode.right]"; note s2: "forest" from s1;
    clearRight(t);
    //: note f1: "(ALL y. y = r | y..Tnode.left = old (y..Tnode.left)) & r..Tnode.left = null" from cond;
    //: note f2: "~ ~ (ALL y. y = t | y..Tnode.right = old (y..Tnode.right)) & t..Tnode.right = null" from post;
    //: note pr1: "ALL y. y..Tnode.left ~= r & y..Tnode.right ~= r" from pr, f1, f2, nn;
    //: note pt1: "ALL y. y..Tnode.left ~= t & y..Tnode.right ~= t" from pt, f1, f2, nn;
    //: note pm1: "m = null | (ALL y. y..Tnode.left ~= m & y..Tnode.right ~= m)" from pm, f1, f2, nn;
    //: note pm2: "~ ~ (m = null | (ALL y. y..Tnode.left ~= m & y..Tnode.right ~= m))" from pm1;
    //: note mr: "m = null | ~ rtrancl_pt (% u v. u..Tnode.left = v | u..Tnode.right = v) m r" from pr1, nn;
    setLeft(r, m);
    //: note f3: "~ ~ (ALL y. y = r | y..Tnode.left = old (y..Tnode.left)) & r..Tnode.left = m" from post;
    //: note pr2: "ALL y. y..Tnode.left ~= r & y..Tnode.right ~= r" from pr, f3, f2, nn;
    //: note pr3: "~ ~ (r = null | (ALL y. y..Tnode.left ~= r & y..Tnode.right ~= r))" from pr2;
    //: note pt2: "ALL y. y..Tnode.left ~= t & y..Tnode.right ~= t" from pt, f3, f2, nn;
    //: note rt: "r = null | ~ rtrancl_pt (% u v. u..Tnode.left = v | u..Tnode.right = v) r t" from pt2, nn;
    setRight(t, r);
    root = t;
    //: note f4: "~ ~ (ALL y. y = t | y..Tnode.right = old (y..Tnode.right)) & t..Tnode.right = r" from post;
    //: note pt3: "ALL y. y..Tnode.left ~= t & y..Tnode.right ~= t" from pt, f3, f4, nn;
    //: note top2: "top" from pt3;
    //: note e1: "t = old (root..Tnode.left) & t..Tnode.right = r & r..Tnode.left = m" from f4, f3;
  }
}
