class Node {
    Node next;
    Node prev;

    public static void link(Node p, Node q)
    /*: requires "p ~= null & q ~= null"
        modifies Node.next, Node.prev
        ensures "p..Node.next = q & q..Node.prev = p" */
    {
        p.next = q;
        q.prev = p;
    }

    public static void twice(Node p, Node q)
    /*: requires "p ~= null & q ~= null"
        modifies Node.next, Node.prev
        ensures "p..Node.next = q & q..Node.prev = p" */
    {
        link(p, q);
        link(p, q);
    }
}
