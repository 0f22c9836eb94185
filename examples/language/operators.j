class Node { Node next; }
class Operators {
  static int n; static boolean b; static boolean c; static Node p; static Node q;
  /*: static ghost specvar A :: objset; static ghost specvar B :: objset; */
  static void all()
  {
    //: assert "b --> c | b"; assert "b & c --> c"; assert "~ b | b"; assert "(b = c) | (b = (~ c))";
    //: assert "p = q --> q = p"; assert "p ~= q | p = q"; assert "p : A Un {p}"; assert "p ~: A - {p}";
    //: assert "A Int B <= A"; assert "- A Int A = {}"; assert "A - {p, q} <= A Un B"; assert "A <= UNIV";
    //: assert "card {p} = 1"; assert "p ~= q --> card {p, q} = 2"; assert "0 <= card A";
    //: assert "n < n + 1"; assert "n - 1 <= n"; assert "2 * n + 1 > n + n"; assert "n >= 0 | - n > 0";
    //: assert "2 dvd n | 2 dvd n + 1";
    //: assert "p : {x. x..next = p..next}"; assert "p..next..next = p..next..Node.next";
    //: assert "ALL x. x : A --> x : A Un B"; assert "EX x y. x = p & y = p..next"; assert "old n = n";
    //: assert "rtrancl_pt (% u v. u..Node.next = v) p p..next"; assert "tree [Node.next] --> p = null | p..next ~= p";
  }
}
