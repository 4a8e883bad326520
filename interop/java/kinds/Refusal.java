package kinds;

/** An exception of the application's own. */
public final class Refusal extends Exception {
    private static final long serialVersionUID = 3;

    public Refusal(String message) {
        super(message);
    }
}
