package interop;

import java.rmi.Remote;
import java.rmi.registry.Registry;

/**
 * A client of the sample: Client PORT CHECKS.. It prints a line for each check, and ends with status 1 where one
 * failed. The host is that of {@link Where}.
 */
public final class Client {
    private final int port;

    private Client(int port) {
        this.port = port;
    }

    /** A new stub of the server's registry. */
    Registry registry() throws Exception {
        return Where.registry(port);
    }

    /** What the registry has by this name. */
    <T extends Remote> T lookup(Class<T> type, String name) throws Exception {
        return type.cast(registry().lookup(name));
    }

    /** A stub of an object of another server, at which nobody looks. */
    Remote foreign() throws Exception {
        return Where.registry(1);
    }

    private static void checks(Client client, String name) throws Exception {
        switch (name) {
            case "names" -> NameChecks.all(client);
            case "foreign" -> NameChecks.foreign(client);
            case "closed" -> NameChecks.closed(client);
            case "values" -> EchoChecks.all(client);
            case "limits" -> EchoChecks.limits(client);
            case "counters" -> CounterChecks.all(client);
            default -> throw new IllegalArgumentException(name);
        }
    }

    public static void main(String[] words) throws Exception {
        Client client = new Client(Integer.parseInt(words[0]));
        for (int i = 1; i < words.length; i++) {
            checks(client, words[i]);
        }
        System.out.flush();
        Runtime.getRuntime().halt(Checks.failed() == 0 ? 0 : 1);
    }
}
