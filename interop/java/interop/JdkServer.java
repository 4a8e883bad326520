package interop;

import java.io.IOException;
import java.net.InetAddress;
import java.net.ServerSocket;
import java.net.Socket;
import java.rmi.Remote;
import java.rmi.RemoteException;
import java.rmi.registry.LocateRegistry;
import java.rmi.registry.Registry;
import java.rmi.server.RMISocketFactory;
import java.rmi.server.UnicastRemoteObject;
import sample.Counter;
import sample.Echo;
import sample.Maker;

/**
 * The sample as the JDK itself serves it: JdkServer PORT. It listens at 127.0.0.1 alone, with the registry and all objects at one port, prints
 * `ready`, and ends when its input does.
 */
public final class JdkServer {
    private static int port;
    private static Registry registry;
    private static Remote[] bound;

    private JdkServer() {
    }

    /** Listens at 127.0.0.1 alone. */
    private static final class Loopback extends RMISocketFactory {
        @Override
        public ServerSocket createServerSocket(int port) throws IOException {
            return new ServerSocket(port, 4096, InetAddress.getByName("127.0.0.1"));
        }

        @Override
        public Socket createSocket(String host, int port) throws IOException {
            return new Socket(host, port);
        }
    }

    private static final class EchoObject implements Echo {
        @Override
        public Object echo(Object value) {
            return value;
        }
    }

    private static final class CounterObject implements Counter {
        private long count;

        @Override
        public synchronized long add(long number) {
            long sum = count + number;
            if (((count ^ sum) & (number ^ sum)) < 0) {
                throw new ArithmeticException("overflow");
            }
            count = sum;
            return sum;
        }

        @Override
        public synchronized long get() {
            return count;
        }
    }

    private static final class MakerObject implements Maker {
        @Override
        public Counter make() throws RemoteException {
            CounterObject made = new CounterObject();
            UnicastRemoteObject.exportObject(made, port);
            return made;
        }
    }

    private static void bind(String name, Remote object) throws Exception {
        UnicastRemoteObject.exportObject(object, port);
        registry.bind(name, object);
    }

    public static void main(String[] words) throws Exception {
        port = Integer.parseInt(words[0]);
        System.setProperty("java.rmi.server.hostname", "127.0.0.1");
        RMISocketFactory.setSocketFactory(new Loopback());
        registry = LocateRegistry.createRegistry(port);
        bound = new Remote[] {new EchoObject(), new CounterObject(), new MakerObject()};
        bind("echo", bound[0]);
        bind("counter", bound[1]);
        bind("maker", bound[2]);
        System.out.println("ready");
        System.out.flush();
        while (System.in.read() >= 0) {
            continue;
        }
        Runtime.getRuntime().halt(0);
    }
}
