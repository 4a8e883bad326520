package shapes;

import java.io.IOException;
import java.io.Serializable;
import java.util.Comparator;
import java.util.List;
import java.util.Map;
import java.util.function.Function;

/** Classes of odd shapes, none of which says its serialVersionUID. */
public final class Shapes {
    private Shapes() {
    }

    /** An interface with methods. */
    public interface Marked extends Serializable {
        int mark();

        default void touch() {
        }

        static Marked none() {
            return null;
        }
    }

    /** An interface without a method. */
    interface Bare extends Serializable {
    }

    /** An interface that has a static initializer, and no method of its own. */
    interface Constants extends Serializable {
        Object LOCK = new Object();
        int SIZE = 3;
    }

    /** An abstract class with methods of every modifier. */
    public abstract static class Abstract implements Marked, Cloneable {
        protected volatile long seen;

        protected Abstract() {
        }

        public abstract Object make(char letter, boolean[][] flags);

        protected synchronized void locked() {
        }

        final native int known(double value);

        static void shared(float value, byte number, short other) throws IOException {
        }
    }

    /** A class that is used like an enum. */
    public static final class Level implements Comparable<Level>, Serializable {
        public static final Level LOW = new Level("low", 0);
        public static final Level HIGH = new Level("high", 1);
        private static final Level[] ALL = {LOW, HIGH};
        private final String name;
        private final int rank;

        private Level(String name, int rank) {
            this.name = name;
            this.rank = rank;
        }

        public static Level[] values() {
            return ALL.clone();
        }

        @Override
        public int compareTo(Level other) {
            return Integer.compare(rank, other.rank);
        }

        @Override
        public String toString() {
            return name;
        }
    }

    /** A class of private members. */
    public static class Hidden implements Serializable {
        private static int count;
        private transient int gone;
        private static transient int both;
        private int kept;
        transient int seen;
        static int shared;

        private Hidden(int kept) {
            this.kept = kept;
        }

        Hidden() {
        }

        private int sum() {
            return kept + gone + count + both;
        }

        private static void forget() {
            count = 0;
        }
    }

    /** An inner class, which has a member for the object around it. */
    public final class Inner implements Serializable {
        byte number = 1;
        Shapes around = Shapes.this;
    }

    /** A class of arrays. */
    protected static class Arrays implements Serializable {
        int[] numbers;
        long[][] rows;
        Object[] things;
        String[][] texts;
        Arrays[] others;
        Arrays next;
        Arrays last;

        Arrays[] all(String... names) {
            return others;
        }
    }

    /** A class of generic types, with bridges. */
    public static class Generic<T extends Comparable<T>, U> implements Comparator<T>, Function<List<? super U>, Map<T, U[]>>, Serializable {
        T first;
        U second;
        List<T> all;
        Map<String, List<U>>[] maps;

        public <V extends T> Generic(V first, List<? extends V> more) {
            this.first = first;
        }

        @Override
        public int compare(T one, T other) {
            return one.compareTo(other);
        }

        @Override
        public Map<T, U[]> apply(List<? super U> list) {
            return null;
        }
    }

    /** A class with synthetic members: for an assertion, and for functions, one of which is serialized. */
    static class Synthetic implements Serializable {
        Runnable one = () -> { };
        Runnable other = (Runnable & Serializable) () -> one.run();

        void sure(int number) {
            assert number > 0;
        }
    }

    /** A class whose one initializer is static. */
    static class Initialized implements Serializable {
        static long when;

        static {
            when = System.nanoTime();
        }
    }

    /** A class of every primitive type, and of names that sort by their bytes. */
    static final class Primitives implements Serializable {
        boolean z;
        byte b;
        char c;
        short s;
        int i;
        long j;
        float f;
        double d;
        int $;
        int _i;
        int I;
        int i1;
    }

    /** A class without any member but what the compiler adds. */
    static class Empty implements Serializable {
    }

    /** A class without a name. */
    static final Serializable NAMELESS = new Serializable() {
        int number = 7;
    };

    /** All of them. */
    public static Class<?>[] all() {
        return new Class<?>[] {
            Marked.class, Bare.class, Constants.class, Abstract.class, Level.class, Hidden.class, Inner.class, Arrays.class, Generic.class, Synthetic.class,
            Initialized.class, Primitives.class, Empty.class, NAMELESS.getClass(),
        };
    }
}
