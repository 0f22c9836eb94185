class A {
  /*: static ghost specvar S :: objset; static ghost specvar T :: objset; */
  static void m(Object y) /*: requires "S <= T" */
  { //: note part: "S <= T"; note one: "y : S --> y : T" from part;
  }
}
