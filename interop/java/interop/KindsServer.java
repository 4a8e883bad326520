package interop;

import java.io.NotSerializableException;
import java.lang.reflect.Proxy;
import java.rmi.Remote;
import java.rmi.RemoteException;
import java.rmi.registry.LocateRegistry;
import java.rmi.registry.Registry;
import java.rmi.server.UnicastRemoteObject;
import java.rmi.server.Unreferenced;
import java.time.Duration;
import java.util.ArrayList;
import java.util.Arrays;
import java.util.Collections;
import java.util.List;
import kinds.Faults;
import kinds.Fields;
import kinds.Keeper;
import kinds.Kinds;
import kinds.Node;
import kinds.Refusal;
import kinds.Unused;

/**
 * A server whose methods have every kind of parameter, result and exception: KindsServer HOST PORT [outside]. Its references name this host. The registry is one
 * of its own at this port, or, with the word, one that runs there already; its objects are at another port. It says `ready`, each time that an object is told
 * that no client is left `unreferenced NAME`, and ends when its input does.
 */
public final class KindsServer {
    /** All objects that were exported, so that none goes because the server has forgotten it. */
    private static final List<Remote> EXPORTED = Collections.synchronizedList(new ArrayList<>());

    private KindsServer() {
    }

    private static void say(String line) {
        System.out.println(line);
        System.out.flush();
    }

    private static final class KindsObject implements Kinds {
        private final Registry registry;

        KindsObject(Registry registry) {
            this.registry = registry;
        }

        @Override
        public String shown(boolean truth, byte small, short few, int some, long many, char sign, String text) {
            return truth + "," + small + "," + few + "," + some + "," + many + "," + (int) sign + "," + text;
        }

        @Override
        public String mixed(String first, int some, String second, long many, boolean truth, String third) {
            return first + "," + some + "," + second + "," + many + "," + truth + "," + third;
        }

        @Override
        public long sum(long a, long b, long c, long d, long e, long f, long g, long h, long i, long j, long k, long l, long m, long n, long o, long p, long q,
                long r, long s, long t, long u, long v, long w, long x, long y, long z, int last) {
            return a + b + c + d + e + f + g + h + i + j + k + l + m + n + o + p + q + r + s + t + u + v + w + x + y + z + last;
        }

        @Override
        public String units(String text) {
            StringBuilder digits = new StringBuilder();
            for (char unit : text.toCharArray()) {
                digits.append(String.format("%04x", (int) unit));
            }
            return digits.toString();
        }

        @Override
        public String text(String units) {
            return textOf(units);
        }

        @Override
        public boolean same(boolean value) {
            return value;
        }

        @Override
        public byte same(byte value) {
            return value;
        }

        @Override
        public short same(short value) {
            return value;
        }

        @Override
        public int same(int value) {
            return value;
        }

        @Override
        public long same(long value) {
            return value;
        }

        @Override
        public char same(char value) {
            return value;
        }

        @Override
        public Object same(Object value) {
            return value;
        }

        @Override
        public void nothing() {
        }

        @Override
        public String noText() {
            return null;
        }

        @Override
        public Object noObject() {
            return null;
        }

        @Override
        public Kinds noReference() {
            return null;
        }

        @Override
        public Object boxed() {
            return 5;
        }

        @Override
        public int[] numbers() {
            return new int[] {1, -1, Integer.MAX_VALUE};
        }

        @Override
        public byte[] bytes() {
            return new byte[] {Byte.MIN_VALUE, 0, Byte.MAX_VALUE};
        }

        @Override
        public boolean[][] table() {
            return new boolean[][] {{true, false}, {}};
        }

        @Override
        public List<String> list() {
            return new ArrayList<>(Arrays.asList("a", null));
        }

        @Override
        public Object proxy() {
            return Proxy.newProxyInstance(Kinds.class.getClassLoader(), new Class<?>[] {Runnable.class, Comparable.class}, new Unused());
        }

        @Override
        public Registry registry() {
            return registry;
        }

        @Override
        public String[] texts() {
            String text = new String("a");
            return new String[] {text, null, text, ""};
        }

        @Override
        public Node ring() {
            Node first = new Node(7, null);
            first.next = new Node(8, first);
            return first;
        }

        @Override
        public Fields fields() {
            return new Fields();
        }

        @Override
        public Thread.State constant() {
            return Thread.State.NEW;
        }

        @Override
        public Class<?> type() {
            return int[].class;
        }

        @Override
        public Node chain(int length) {
            Node first = null;
            for (int number = length; number > 0; number--) {
                first = new Node(number, first);
            }
            return first;
        }

        @Override
        public Object duration() {
            return Duration.ofSeconds(1);
        }

        @Override
        public Object broken() {
            return new Object[] {"a", new Object()};
        }

        @Override
        public double real() {
            return 0.5;
        }

        @Override
        public float realOf(float value) {
            return value;
        }
    }

    /** The text of units, each in four hexadecimal digits. */
    private static String textOf(String units) {
        StringBuilder text = new StringBuilder();
        for (int at = 0; at < units.length(); at += 4) {
            text.append((char) Integer.parseInt(units.substring(at, at + 4), 16));
        }
        return text.toString();
    }

    private static final class FaultsObject implements Faults {
        @Override
        public void refuse(String message) throws Refusal {
            throw new Refusal(message);
        }

        @Override
        public int fail(String units) {
            throw new IllegalStateException(textOf(units));
        }

        @Override
        public String failSilently() {
            throw new UnsupportedOperationException();
        }

        @Override
        public void failFor(int causes) {
            RuntimeException cause = new RuntimeException("the first one");
            for (int i = 0; i < causes; i++) {
                cause = new RuntimeException("a later one", cause);
            }
            throw new IllegalArgumentException("the last one", cause);
        }

        @Override
        public void exhaust() {
            throw new OutOfMemoryError("not really");
        }

        @Override
        public void refuseRemotely(String message) throws RemoteException {
            throw new RemoteException(message, new NotSerializableException("its cause"));
        }
    }

    private static final class KeeperObject implements Keeper, Unreferenced {
        private final String name;
        private int unreferenced;
        private int made;

        KeeperObject(String name) {
            this.name = name;
        }

        @Override
        public int rest(long milliseconds) throws RemoteException {
            say("rests");
            try {
                Thread.sleep(milliseconds);
            } catch (InterruptedException early) {
                throw new RemoteException("interrupted", early);
            }
            say("rested");
            synchronized (this) {
                return unreferenced;
            }
        }

        @Override
        public synchronized Keeper make() throws RemoteException {
            made++;
            return (Keeper) export(new KeeperObject(name + "." + made));
        }

        @Override
        public Object self() {
            return this;
        }

        @Override
        public Keeper[] several() throws RemoteException {
            Keeper first = make();
            return new Keeper[] {first, make(), first};
        }

        @Override
        public int halt() {
            Runtime.getRuntime().halt(0);
            return 0;
        }

        @Override
        public synchronized void unreferenced() {
            unreferenced++;
            say("unreferenced " + name);
        }
    }

    /** The stub of an object that it exports, at a port that the system chooses. */
    private static Remote export(Remote object) throws RemoteException {
        EXPORTED.add(object);
        return UnicastRemoteObject.exportObject(object, 0);
    }

    public static void main(String[] words) throws Exception {
        System.setProperty("java.rmi.server.hostname", words[0]);
        int port = Integer.parseInt(words[1]);
        Registry registry = words.length > 2 ? LocateRegistry.getRegistry("127.0.0.1", port) : LocateRegistry.createRegistry(port);
        registry.bind("kinds", export(new KindsObject(registry)));
        registry.bind("faults", export(new FaultsObject()));
        registry.bind("keeper", export(new KeeperObject("keeper")));
        Remote gone = new FaultsObject();
        registry.bind("gone", export(gone));
        UnicastRemoteObject.unexportObject(gone, true);
        say("ready");
        while (System.in.read() >= 0) {
            continue;
        }
        Runtime.getRuntime().halt(0);
    }
}
