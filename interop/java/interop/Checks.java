package interop;

import java.rmi.RemoteException;
import java.rmi.ServerError;
import java.rmi.ServerException;
import java.util.Objects;

/** Runs checks by name, and prints a line for each. */
final class Checks {
    /** What a check does: it ends well, or throws what it saw. */
    interface Body {
        void run() throws Exception;
    }

    private static int failed;

    private Checks() {
    }

    /** Runs a check, and prints `ok NAME`, or `FAILED NAME: ` and what was seen. */
    static void check(String name, Body body) {
        try {
            body.run();
            System.out.println("ok " + name);
        } catch (Throwable seen) {
            failed++;
            System.out.println("FAILED " + name + ": " + seen);
            seen.printStackTrace();
        }
    }

    /** How many checks failed so far. */
    static int failed() {
        return failed;
    }

    static void equal(Object wanted, Object seen) {
        if (!Objects.equals(wanted, seen)) {
            throw new AssertionError("seen " + seen + ", wanted " + wanted);
        }
    }

    /**
     * What a call is refused with, as its class, a colon and its message. The program sends such a text as the message of a plain RemoteException;
     * the JDK's own server sends the exception, some of them inside a ServerException.
     */
    static String faultOf(Body call) {
        try {
            call.run();
        } catch (Exception seen) {
            Throwable fault = seen;
            if ((seen instanceof ServerException || seen instanceof ServerError) && seen.getCause() != null) {
                fault = seen.getCause();
            }
            return fault.getClass() == RemoteException.class ? fault.getMessage() : fault.toString();
        }
        throw new AssertionError("the call is not refused");
    }
}
