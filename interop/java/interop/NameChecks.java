package interop;

import static interop.Checks.check;
import static interop.Checks.equal;
import static interop.Checks.faultOf;

import java.rmi.registry.Registry;
import java.util.Arrays;
import java.util.Set;
import java.util.TreeSet;
import sample.Counter;
import sample.Echo;
import sample.Maker;

/** Checks of the registry. */
final class NameChecks {
    /** A name of characters that take two, three and six bytes. */
    private static final String FAR = "\u00e9\u20ac\ud83d\ude00";

    private NameChecks() {
    }

    private static Set<String> names(Registry registry) throws Exception {
        return new TreeSet<>(Arrays.asList(registry.list()));
    }

    private static Set<String> with(String... more) {
        Set<String> names = new TreeSet<>(Arrays.asList("echo", "counter", "maker"));
        names.addAll(Arrays.asList(more));
        return names;
    }

    /** Looks names up, and sees what is refused, at a registry with the sample's names alone. */
    private static void reads(Registry registry) {
        check("list", () -> equal(with(), names(registry)));
        check("lookup of each name", () -> {
            Echo.class.cast(registry.lookup("echo"));
            Counter.class.cast(registry.lookup("counter"));
            Maker.class.cast(registry.lookup("maker"));
        });
        check("lookup: NotBoundException", () -> equal("java.rmi.NotBoundException: nobody", faultOf(() -> registry.lookup("nobody"))));
    }

    /** Checks of a registry whose names may be changed. */
    static void all(Client client) throws Exception {
        Registry registry = client.registry();
        reads(registry);
        Counter made = client.lookup(Maker.class, "maker").make();
        made.add(41);
        check("bind, and calls of what the name stands for", () -> {
            registry.bind("again", made);
            equal(42L, client.lookup(Counter.class, "again").add(1));
            equal(made, registry.lookup("again"));
        });
        check("bind: AlreadyBoundException", () -> equal("java.rmi.AlreadyBoundException: again", faultOf(() -> registry.bind("again", made))));
        check("rebind", () -> {
            registry.rebind("again", client.lookup(Echo.class, "echo"));
            equal("a", client.lookup(Echo.class, "again").echo("a"));
        });
        check("rebind of a new name, with characters outside ASCII", () -> {
            registry.rebind(FAR, made);
            equal(with("again", FAR), names(registry));
            equal(42L, client.lookup(Counter.class, FAR).get());
        });
        check("unbind", () -> {
            registry.unbind("again");
            registry.unbind(FAR);
            equal(with(), names(registry));
        });
        check("unbind: NotBoundException", () -> equal("java.rmi.NotBoundException: again", faultOf(() -> registry.unbind("again"))));
    }

    /** What the program refuses beside: references to other servers, which Java's own registry keeps. */
    static void foreign(Client client) throws Exception {
        Registry registry = client.registry();
        check("bind and rebind of another server's object", () -> {
            equal("java.rmi.ServerException: foreign reference", faultOf(() -> registry.bind("far", client.foreign())));
            equal("java.rmi.ServerException: foreign reference", faultOf(() -> registry.rebind("far", client.foreign())));
            equal(with(), names(registry));
        });
        check("names of 255 and of 256 characters", () -> {
            registry.bind("n".repeat(255), registry.lookup("echo"));
            registry.unbind("n".repeat(255));
            equal("java.rmi.ServerException: name too long", faultOf(() -> registry.bind("n".repeat(256), registry.lookup("echo"))));
        });
    }

    /** Checks of a registry whose names may not be changed. */
    static void closed(Client client) throws Exception {
        Registry registry = client.registry();
        reads(registry);
        check("bind, rebind, unbind: AccessException", () -> {
            String refused = "java.rmi.AccessException: binding is not allowed";
            equal(refused, faultOf(() -> registry.bind("again", registry.lookup("echo"))));
            equal(refused, faultOf(() -> registry.rebind("echo", registry.lookup("counter"))));
            equal(refused, faultOf(() -> registry.unbind("nobody")));
            equal(with(), names(registry));
            equal("a", client.lookup(Echo.class, "echo").echo("a"));
        });
    }
}
