package kinds;

import java.io.Serializable;

/** A number, and another node. */
public final class Node implements Serializable {
    private static final long serialVersionUID = 1;

    public int number;
    public Node next;

    public Node(int number, Node next) {
        this.number = number;
        this.next = next;
    }
}
