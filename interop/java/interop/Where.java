package interop;

import java.rmi.RemoteException;
import java.rmi.registry.LocateRegistry;
import java.rmi.registry.Registry;

/** Where the server is: at the host that the property `interop.host` names, and else at 127.0.0.1. */
final class Where {
    private Where() {
    }

    static String host() {
        return System.getProperty("interop.host", "127.0.0.1");
    }

    static Registry registry(int port) throws RemoteException {
        return LocateRegistry.getRegistry(host(), port);
    }
}
