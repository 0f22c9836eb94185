// A tree of two fields: a new leaf at the far left, and the leftmost node.
class Tnode { Tnode left; Tnode right; }
class Tree {
  private static Tnode root;
  /*: public static specvar content :: objset;
      vardefs "content == {x. x ~= null & rtrancl_pt (% u v. u..Tnode.left = v | u..Tnode.right = v) root x}";
      invariant shape: "tree [Tnode.left, Tnode.right]";
      invariant top: "root = null | (ALL y. y..Tnode.left ~= root & y..Tnode.right ~= root)"; */
  public static Tnode insertLeft()
  /*: modifies content ensures "result ~: old content & content = old content Un {result}" */
  { Tnode n = new Tnode();
    if (root == null) { root = n; }
    else { Tnode p = root;
      while /*: inv on: "p : content" */ (p.left != null) { p = p.left; }
      p.left = n; }
    return n; }
  public static Tnode findMin()
  /*: requires "content ~= {}" ensures "result : content & result..Tnode.left = null" */
  { //: note some: "root ~= null";
    Tnode p = root;
    while /*: inv on: "p : content" */ (p.left != null) { p = p.left; }
    return p; }
  public static boolean isEmpty() /*: ensures "result = (content = {})" */
  { //: note h: "root = null | root : content";
    return root == null; }
}
