// Two lists through the same items: all of them, and those to be worked at.
class Item { Item nextA; Item nextB; boolean dirty; }
class Store {
  private static Item all; private static Item work;
  /*: public static specvar items :: objset;
      vardefs "items == {x. x ~= null & rtrancl_pt (% u v. u..Item.nextA = v) all x}";
      public static specvar pending :: objset;
      vardefs "pending == {x. x ~= null & rtrancl_pt (% u v. u..Item.nextB = v) work x}";
      invariant shapeA: "tree [Item.nextA]";
      invariant shapeB: "tree [Item.nextB]";
      invariant rootA: "all = null | (ALL y. y..Item.nextA ~= all)";
      invariant rootB: "work = null | (ALL y. y..Item.nextB ~= work)";
      invariant sub: "pending <= items";
      invariant marks: "ALL x. x : items --> (x..Item.dirty = (x : pending))"; */
  public static void touch(Item x)
  /*: requires "x : items & x ~: pending & x..Item.nextB = null & (ALL y. y..Item.nextB ~= x)"
      modifies pending, Item.dirty
      ensures "pending = old pending Un {x} & items = old items" */
  { x.nextB = work; work = x; x.dirty = true; }
  public static Item pick()
  /*: requires "pending ~= {}"
      modifies pending, Item.dirty
      ensures "result : items & pending = old pending - {result} & items = old items" */
  { //: note some: "work ~= null";
    Item x = work; work = x.nextB; x.nextB = null; x.dirty = false; return x; }
  public static Item make()
  /*: modifies items ensures "result ~: old items & items = old items Un {result} & pending = old pending" */
  { Item x = new Item(); x.nextA = all; all = x; return x; }
}
