public class Node /* linked */ {
    public Node next;
    public Object data = null, other;
}

public final /*: claimedby List */ class Pair { private int left = 0, right; }

class List {
    private static Node first;
    private int count = 0;
    static boolean open = true;
    /*: public specvar content :: objset;
        private static ghost specvar seen :: "obj set" = "{}";
        vardefs "content == {x. x ~= null & rtrancl_pt (% u v. u..next = v) first x}";
        public invariant shape: "tree [Node.next]";
        private invariant "ALL x y :: obj. x : content --> (EX z. z..next = y | y = null) | ~ x : {y, first} Un UNIV"; */

    public static void add(Node node, int amount)
    /*: requires "node ~= null & node ~: content"
        modifies content, "seen", Node.next
        ensures "content = old content Un {node} & card content >= 1 + 2 * 3 - old count Int alloc" */
    {
        node.next = first;
        (this).count = -amount + 1;
        //: seen := "seen Un {node}"; assert l: "first ~= node" from pre, shape
        Node n = first;
        int i;
        while /*: inv i: "0 <= i"; inv "2 dvd i" */ (n != null && !(i >= 3) || i < 2) {
            if (n == first) { n = n.next; } else if (open) ; else return;
            i = i + 1; // a step
        }
        if (i == 0) /*: note done: "True --> False" from l */
        List.add(n, i * 2);
        n = new Node();
        n = find(this, null, true);
        return;
    }

    protected final Node find(Object a, Object b, boolean c) { return first; }
}
