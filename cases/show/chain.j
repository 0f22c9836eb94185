class A {
  /*: static ghost specvar A0 :: objset; static ghost specvar B :: objset; static ghost specvar C :: objset;
      static ghost specvar D :: objset; static ghost specvar E :: objset; static ghost specvar F :: objset;
      static ghost specvar G :: objset; */
  static void chain(Object x, Object y)
  /*: requires "A0 <= B & B <= C & C <= D & D <= E & E <= F & F <= G & card G = 1 & x : A0 & y : G"
      ensures "x = y" */ { }
  static void twice(Object x)
  /*: requires "x ~: A0 & card A0 = 2" modifies A0
      ensures "card A0 = 3" */ { /*: A0 := "A0 Un {x}"; */ }
}
