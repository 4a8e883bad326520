package interop;

import java.rmi.RemoteException;
import java.util.ArrayList;
import java.util.List;
import java.util.concurrent.CountDownLatch;
import sample.Counter;

/**
 * A client that calls until its server stops: Hammer PORT THREADS. It prints `calling` once each thread has made a call. Each thread then calls on until a call throws, and
 * prints `ended CLASS MILLISECONDS`: the exception's class, or `remote CLASS` where it is an RMI exception, and the milliseconds that this call took.
 */
public final class Hammer {
    private Hammer() {
    }

    private static synchronized void say(String line) {
        System.out.println(line);
        System.out.flush();
    }

    private static void callOn(Counter counter, CountDownLatch ready) {
        long start = System.nanoTime();
        try {
            for (int calls = 0;; calls++) {
                start = System.nanoTime();
                counter.add(1);
                if (calls == 0) {
                    ready.countDown();
                }
            }
        } catch (RemoteException seen) {
            say("ended remote " + seen.getClass().getName() + " " + (System.nanoTime() - start) / 1_000_000);
        } catch (RuntimeException seen) {
            say("ended " + seen.getClass().getName() + " " + (System.nanoTime() - start) / 1_000_000);
        }
    }

    public static void main(String[] words) throws Exception {
        int count = Integer.parseInt(words[1]);
        Counter counter = (Counter) Where.registry(Integer.parseInt(words[0])).lookup("counter");
        CountDownLatch ready = new CountDownLatch(count);
        List<Thread> threads = new ArrayList<>();
        for (int i = 0; i < count; i++) {
            Thread thread = new Thread(() -> callOn(counter, ready));
            thread.start();
            threads.add(thread);
        }
        ready.await();
        say("calling");
        for (Thread thread : threads) {
            thread.join();
        }
        Runtime.getRuntime().halt(0);
    }
}
