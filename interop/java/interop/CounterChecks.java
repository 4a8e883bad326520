package interop;

import static interop.Checks.check;
import static interop.Checks.equal;
import static interop.Checks.faultOf;

import java.util.ArrayList;
import java.util.BitSet;
import java.util.List;
import java.util.concurrent.ExecutorService;
import java.util.concurrent.Executors;
import java.util.concurrent.Future;
import sample.Counter;
import sample.Maker;

/** Checks of counters. */
final class CounterChecks {
    private static final int THREADS = 4;
    private static final int CALLS = 2_000;

    private CounterChecks() {
    }

    /** Adds 1 so many times, and gives the sums that were answered. */
    private static long[] add(Counter counter) throws Exception {
        long[] sums = new long[CALLS];
        for (int i = 0; i < CALLS; i++) {
            sums[i] = counter.add(1);
        }
        return sums;
    }

    /** Adds from several threads: each sum must have been answered once, and to each thread in rising order. */
    private static void addFromThreads(Counter counter) throws Exception {
        ExecutorService threads = Executors.newFixedThreadPool(THREADS);
        List<Future<long[]>> started = new ArrayList<>();
        for (int i = 0; i < THREADS; i++) {
            started.add(threads.submit(() -> add(counter)));
        }
        BitSet seen = new BitSet();
        for (Future<long[]> one : started) {
            long before = 0;
            for (long sum : one.get()) {
                equal(true, sum > before && !seen.get((int) sum));
                seen.set((int) sum);
                before = sum;
            }
        }
        threads.shutdown();
        equal(THREADS * CALLS, seen.cardinality());
        equal(THREADS * CALLS + 1, seen.length());
        equal((long) THREADS * CALLS, counter.get());
    }

    static void all(Client client) throws Exception {
        Maker maker = client.lookup(Maker.class, "maker");
        check("the bound counter", () -> {
            Counter counter = client.lookup(Counter.class, "counter");
            long before = counter.get();
            equal(before + 5, counter.add(5));
            equal(before + 5, client.lookup(Counter.class, "counter").get());
        });
        check("counters that are made count by themselves", () -> {
            Counter one = maker.make();
            Counter other = maker.make();
            equal(3L, one.add(3));
            equal(0L, other.get());
            equal(false, one.equals(other));
        });
        check("four threads add to one counter", () -> addFromThreads(maker.make()));
        check("a sum past the ends of a long", () -> {
            Counter counter = maker.make();
            equal(Long.MAX_VALUE, counter.add(Long.MAX_VALUE));
            equal("java.lang.ArithmeticException: overflow", faultOf(() -> counter.add(1)));
            equal(-1L, counter.add(Long.MIN_VALUE));
        });
    }
}
