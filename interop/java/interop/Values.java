package interop;

import java.io.IOException;
import java.io.ObjectInputStream;
import java.io.ObjectOutputStream;
import java.io.ObjectStreamField;
import java.io.Serializable;
import java.math.BigDecimal;
import java.math.BigInteger;
import java.net.InetSocketAddress;
import java.net.URI;
import java.rmi.MarshalledObject;
import java.util.ArrayDeque;
import java.util.ArrayList;
import java.util.Arrays;
import java.util.BitSet;
import java.util.Collections;
import java.util.Currency;
import java.util.Date;
import java.util.EnumMap;
import java.util.EnumSet;
import java.util.HashMap;
import java.util.HashSet;
import java.util.LinkedHashMap;
import java.util.LinkedList;
import java.util.List;
import java.util.Locale;
import java.util.Map;
import java.util.PriorityQueue;
import java.util.Properties;
import java.util.TimeZone;
import java.util.TreeMap;
import java.util.TreeSet;
import java.util.UUID;
import java.util.concurrent.ConcurrentHashMap;
import java.util.concurrent.TimeUnit;

/** Values to be echoed, each with a name. */
final class Values {
    private Values() {
    }

    /** Constants with and without a body of their own. */
    enum Sign {
        PLUS {
            @Override
            int of(int number) {
                return number;
            }
        },
        MINUS {
            @Override
            int of(int number) {
                return -number;
            }
        };

        abstract int of(int number);
    }

    record Pair(int number, String text) implements Serializable {
    }

    /** No part of it is serialized. */
    static class Plain {
        int lost = 7;
    }

    /** Fields of each primitive type, above a class that is not serialized. */
    static class Fields extends Plain implements Serializable {
        private static final long serialVersionUID = 5;
        boolean truth = true;
        byte small = -128;
        char sign = '\uffff';
        short few = Short.MIN_VALUE;
        int some = Integer.MIN_VALUE;
        long many = Long.MIN_VALUE;
        float part = Float.MIN_VALUE;
        double share = Double.MAX_VALUE;
        transient String skipped = "skipped";
        Object nothing;
    }

    /** Fields in three classes of a chain. */
    static class Further extends Fields {
        private static final long serialVersionUID = 6;
        int[] numbers = {1, 2, 3};
        String text = "further";
    }

    /** Writes all that it has by itself, as numbers and objects in turn. */
    static class ByHand implements Serializable {
        private static final long serialVersionUID = 7;
        private static final ObjectStreamField[] serialPersistentFields = {};
        private int number = 1 << 30;
        private String text = "by hand";
        private double share = -0.5;
        private List<Object> list = new ArrayList<>(Arrays.asList("a", 1L, null));

        private void writeObject(ObjectOutputStream out) throws IOException {
            out.defaultWriteObject();
            out.writeInt(number);
            out.writeObject(text);
            out.writeDouble(share);
            out.writeUTF("between");
            out.writeObject(list);
            out.write(new byte[2000]);
        }

        @SuppressWarnings("unchecked")
        private void readObject(ObjectInputStream in) throws IOException, ClassNotFoundException {
            in.defaultReadObject();
            number = in.readInt();
            text = (String) in.readObject();
            share = in.readDouble();
            Checks.equal("between", in.readUTF());
            list = (List<Object>) in.readObject();
            Checks.equal(2000, in.readNBytes(2000).length);
        }
    }

    /** Stands for one value wherever it is read. */
    static final class Only implements Serializable {
        private static final long serialVersionUID = 8;
        static final Only ONE = new Only();

        private Object readResolve() {
            return ONE;
        }
    }

    static class Node implements Serializable {
        private static final long serialVersionUID = 9;
        String name;
        Node next;
        Node other;
        Object shared;

        Node(String name) {
            this.name = name;
        }
    }

    /** Three nodes in a ring, with parts that several of them have. */
    private static Node ring() {
        Node a = new Node("a");
        Node b = new Node("b");
        Node c = new Node(a.name);
        List<Object> shared = new ArrayList<>();
        shared.add(a);
        shared.add(shared.size());
        a.next = b;
        b.next = c;
        c.next = a;
        a.other = a;
        b.other = a;
        a.shared = shared;
        b.shared = new Object[] {shared, b, shared};
        c.shared = shared;
        return a;
    }

    /** Two characters of each of Unicode's planes, U+0000 among them. */
    private static String planes() {
        StringBuilder text = new StringBuilder("\0\u007f\u0080\u07ff\u0800\uffff");
        for (int plane = 0; plane <= 16; plane++) {
            text.appendCodePoint(plane << 16 | 0x41).appendCodePoint(plane << 16 | 0xfffd);
        }
        return text.toString();
    }

    private static Throwable exception() {
        IllegalStateException thrown = new IllegalStateException("outer", new IOException("inner"));
        thrown.addSuppressed(new ArithmeticException());
        return thrown;
    }

    private static Map<String, Object> hashMap() {
        Map<String, Object> map = new HashMap<>();
        map.put(null, "the null key");
        map.put("null", null);
        for (int i = 0; i < 100; i++) {
            map.put("key " + i, i);
        }
        return map;
    }

    private static Object boxes() {
        return new Object[] {
            Byte.MIN_VALUE, Byte.MAX_VALUE, Short.MIN_VALUE, Short.MAX_VALUE, Integer.MIN_VALUE, Integer.MAX_VALUE, Long.MIN_VALUE, Long.MAX_VALUE,
            Float.NaN, -0.0f, Float.NEGATIVE_INFINITY, Float.MIN_VALUE, Double.NaN, -0.0, Double.POSITIVE_INFINITY, Double.MAX_VALUE,
            Character.MIN_VALUE, Character.MAX_VALUE, true, false,
        };
    }

    private static byte[] bytes(int length) {
        byte[] bytes = new byte[length];
        for (int i = 0; i < length; i++) {
            bytes[i] = (byte) (i * 7 + i / 256);
        }
        return bytes;
    }

    private static <T> T filled(T map, Map<?, ?> with) {
        @SuppressWarnings("unchecked")
        Map<Object, Object> filled = (Map<Object, Object>) map;
        filled.putAll(with);
        return map;
    }

    private static void putTexts(Map<String, Object> values) {
        values.put("an empty text", "");
        values.put("a text of ASCII", "The quick brown fox");
        values.put("a text with characters of every plane", planes());
        values.put("halves of pairs", "\ud800 \udc00\ud800");
        values.put("a text of 140,000 bytes", "\u00e9".repeat(70_000));
    }

    private static void putBoxes(Map<String, Object> values) {
        values.put("a Boolean", true);
        values.put("a Byte", (byte) -1);
        values.put("a Character", '\u20ac');
        values.put("a Short", (short) -2);
        values.put("an Integer", 1_000_000);
        values.put("a Long", -1L << 40);
        values.put("a Float", 1.5f);
        values.put("a Double", Math.PI);
        values.put("the ends of each boxed type", boxes());
    }

    private static void putArrays(Map<String, Object> values) {
        values.put("boolean[]", new boolean[] {true, false, true});
        values.put("byte[]", bytes(100_000));
        values.put("char[]", "\0\u00e9\ud800".toCharArray());
        values.put("short[]", new short[] {-1, 0, Short.MAX_VALUE});
        values.put("int[]", new int[] {-1, 0, Integer.MAX_VALUE});
        values.put("long[]", new long[] {-1, 0, Long.MAX_VALUE});
        values.put("float[]", new float[] {-0.0f, Float.NaN, Float.MIN_VALUE});
        values.put("double[]", new double[] {-0.0, Double.NaN, Double.MIN_VALUE});
        values.put("empty arrays", new Object[] {new boolean[0], new long[0], new Object[0], new String[0][0]});
        values.put("int[][]", new int[][] {{1}, null, {}, {2, 3}});
        String twice = "twice";
        values.put("String[]", new String[] {twice, null, twice, ""});
        values.put("Object[]", new Object[] {1, "a", new Object[] {2, 'b'}, null});
    }

    private static void putCollections(Map<String, Object> values) {
        values.put("ArrayList", new ArrayList<>(Arrays.asList("a", 1, null, 2.0)));
        values.put("LinkedList", new LinkedList<>(Arrays.asList(1L, 2L, "three")));
        values.put("HashMap", hashMap());
        values.put("LinkedHashMap", filled(new LinkedHashMap<>(), Map.of("a", 1, "b", 2, "c", 3)));
        values.put("TreeMap", filled(new TreeMap<>(), Map.of("a", 1, "b", 2, "c", 3)));
        values.put("ConcurrentHashMap", filled(new ConcurrentHashMap<>(), Map.of("a", 1, "b", 2)));
        values.put("EnumMap", filled(new EnumMap<>(TimeUnit.class), Map.of(TimeUnit.DAYS, "day", TimeUnit.HOURS, "hour")));
        values.put("Properties", filled(new Properties(), Map.of("key", "value")));
        values.put("HashSet", new HashSet<>(Arrays.asList("a", "b", 3)));
        values.put("TreeSet", new TreeSet<>(Arrays.asList(3, 1, 2)));
        values.put("EnumSet", EnumSet.of(TimeUnit.DAYS, TimeUnit.SECONDS));
        values.put("ArrayDeque", new ArrayDeque<>(Arrays.asList(1, 2, 3)));
        values.put("PriorityQueue", new PriorityQueue<>(Arrays.asList(3, 1, 2)));
        values.put("BitSet", BitSet.valueOf(new long[] {5, 1L << 63}));
        values.put("Arrays.asList", Arrays.asList("a", "b"));
        values.put("List.of", List.of("a", 2, 'c'));
        values.put("Map.of", Map.of("a", 1));
        values.put("Collections", Arrays.asList(Collections.emptyList(), Collections.singletonList(1), Collections.unmodifiableList(new ArrayList<>(List.of(2))), Collections.nCopies(3, "c")));
    }

    private static void putLibrary(Map<String, Object> values) {
        values.put("BigInteger", BigInteger.TWO.pow(1000).negate());
        values.put("BigDecimal", new BigDecimal("-12345678901234567890.0987654321"));
        values.put("Date", new Date(1_700_000_000_123L));
        values.put("UUID", new UUID(-1, 1));
        values.put("URI", URI.create("rmi://127.0.0.1:1099/a%20b?c#d"));
        values.put("Locale", Locale.CANADA_FRENCH);
        values.put("Currency", Currency.getInstance("EUR"));
        values.put("TimeZone", TimeZone.getTimeZone("Europe/Paris"));
        values.put("InetSocketAddress", new InetSocketAddress("127.0.0.1", 1099));
        values.put("an exception with a cause", exception());
        values.put("classes", new Object[] {String.class, int.class, int[].class, Pair.class, Runnable.class});
    }

    private static void putOwn(Map<String, Object> values) throws IOException {
        values.put("an enum", TimeUnit.DAYS);
        values.put("enums with bodies, one of them twice", new Object[] {Sign.PLUS, Sign.MINUS, Sign.PLUS});
        values.put("a record", new Pair(1, "one"));
        values.put("an object with fields of each type", new Fields());
        values.put("an object of a chain of classes", new Further());
        values.put("an object that is written by hand", new ByHand());
        values.put("an object that is resolved", new Object[] {Only.ONE, Only.ONE});
        values.put("a graph with a ring and shared parts", ring());
        values.put("a MarshalledObject", new MarshalledObject<>("inside"));
        Object[] self = {null};
        self[0] = self;
        values.put("an array that has itself", self);
    }

    /** The values, by their names. */
    static Map<String, Object> all() throws IOException {
        Map<String, Object> values = new LinkedHashMap<>();
        values.put("null", null);
        putBoxes(values);
        putTexts(values);
        putArrays(values);
        putCollections(values);
        putLibrary(values);
        putOwn(values);
        return values;
    }
}
