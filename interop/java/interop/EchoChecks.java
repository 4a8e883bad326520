package interop;

import static interop.Checks.check;
import static interop.Checks.equal;

import java.rmi.RemoteException;
import java.time.LocalDate;
import java.util.Map;
import sample.Counter;
import sample.Echo;
import sample.Maker;

/** Checks of values that are sent and come back. */
final class EchoChecks {
    private EchoChecks() {
    }

    static void all(Client client) throws Exception {
        Echo echo = client.lookup(Echo.class, "echo");
        for (Map.Entry<String, Object> named : Values.all().entrySet()) {
            Object value = named.getValue();
            check("echo: " + named.getKey(), () -> Same.compare(value, echo.echo(value)));
        }
        check("echo: all of them in one array", () -> {
            Object[] all = Values.all().values().toArray();
            Same.compare(all, echo.echo(all));
        });
        check("echo: stubs of the server's objects", () -> {
            Counter made = client.lookup(Maker.class, "maker").make();
            made.add(7);
            Object[] came = (Object[]) echo.echo(new Object[] {made, echo, made});
            equal(made, came[0]);
            equal(echo, came[1]);
            equal(true, came[0] == came[2]);
            equal(8L, ((Counter) came[0]).add(1));
        });
    }

    /** A list in which each node has the next. */
    private static Object chain(int length) {
        Values.Node first = null;
        for (int i = 0; i < length; i++) {
            Values.Node node = new Values.Node(null);
            node.next = first;
            first = node;
        }
        return first;
    }

    private static void refused(Echo echo, Object value) throws Exception {
        try {
            echo.echo(value);
        } catch (RemoteException seen) {
            equal("a", echo.echo("a"));
            return;
        }
        throw new AssertionError("the value came back");
    }

    /** Values past what the program takes. They end their connection, and the next call makes another. */
    static void limits(Client client) throws Exception {
        Echo echo = client.lookup(Echo.class, "echo");
        check("echo: a chain of 190 objects", () -> Same.compare(chain(190), echo.echo(chain(190))));
        check("refused: a chain of 220 objects", () -> refused(echo, chain(220)));
        check("refused: a value of java.time", () -> refused(echo, LocalDate.EPOCH));
        check("refused: 17 megabytes", () -> refused(echo, new byte[17_000_000]));
        check("refused: 70,000 objects", () -> {
            Object[] many = new Object[70_000];
            for (int i = 0; i < many.length; i++) {
                many[i] = new int[0];
            }
            refused(echo, many);
        });
    }
}
