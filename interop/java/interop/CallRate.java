package interop;

import sample.Counter;

/**
 * Java's own client: CallRate PORT N. It looks the counter up, calls `get` N / 10 times to become quick and N times after that, and prints how many of the latter it made in
 * a second. It ends at once, so that with N = 1 it is the quickest program that makes one call.
 */
public final class CallRate {
    private CallRate() {
    }

    private static void call(Counter counter, int count) throws Exception {
        for (int i = 0; i < count; i++) {
            counter.get();
        }
    }

    public static void main(String[] words) throws Exception {
        int count = Integer.parseInt(words[1]);
        Counter counter = (Counter) Where.registry(Integer.parseInt(words[0])).lookup("counter");
        call(counter, count / 10);
        long start = System.nanoTime();
        call(counter, count);
        System.out.println(count * 1_000_000_000L / (System.nanoTime() - start));
        System.out.flush();
        Runtime.getRuntime().halt(0);
    }
}
