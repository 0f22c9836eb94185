class Node { Node next; Object data; }
class List {
	private static Node first;
	/*: public static specvar nodes :: objset;
	    vardefs "nodes == {n. n ~= null & rtrancl_pt (% u v. u..Node.next = v) first n}";
	    invariant shape: "tree [Node.next]";
	    invariant root: "first = null | (ALL y. y..Node.next ~= first)"; */
	public static void grow(Object é)
	/*: modifies nodes
	    ensures "EX n. n ~: old nodes & nodes = old nodes Un {n} & n..Node.data = é" */
	{ Node n = new Node(); n.data = é; n.next = first; first = n; }
}
