package interop;

import example.Greeter;
import java.rmi.RemoteException;
import java.rmi.registry.LocateRegistry;
import java.rmi.server.UnicastRemoteObject;
import java.rmi.server.Unreferenced;
import java.util.ArrayList;
import java.util.Collections;
import java.util.List;

/**
 * A server of a greeter for the client of the examples: GreeterServer PORT. The registry at this port knows it as `greeter`. It says `ready`, and `unreferenced
 * NAME` where no client is left that holds an object. It ends when its input does.
 */
public final class GreeterServer {
    /** All greeters, so that none goes because the server has forgotten it. */
    private static final List<Greeter> GREETERS = Collections.synchronizedList(new ArrayList<>());

    private GreeterServer() {
    }

    private static void say(String line) {
        System.out.println(line);
        System.out.flush();
    }

    private static final class GreeterObject implements Greeter, Unreferenced {
        private final String name;
        private final String word;
        private int count;

        GreeterObject(String name, String word) {
            this.name = name;
            this.word = word;
        }

        @Override
        public synchronized String greet(String guest) {
            count++;
            return word + ", " + guest + "!";
        }

        @Override
        public synchronized int count() {
            return count;
        }

        @Override
        public Greeter friend() throws RemoteException {
            return exported(new GreeterObject("friend", "Hi"));
        }

        @Override
        public void unreferenced() {
            say("unreferenced " + name);
        }
    }

    private static Greeter exported(Greeter greeter) throws RemoteException {
        GREETERS.add(greeter);
        return (Greeter) UnicastRemoteObject.exportObject(greeter, 0);
    }

    public static void main(String[] words) throws Exception {
        System.setProperty("java.rmi.server.hostname", "127.0.0.1");
        LocateRegistry.createRegistry(Integer.parseInt(words[0])).bind("greeter", exported(new GreeterObject("greeter", "Hello")));
        say("ready");
        while (System.in.read() >= 0) {
            continue;
        }
        System.exit(0);
    }
}
