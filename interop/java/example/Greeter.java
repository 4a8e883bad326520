package example;

import java.rmi.Remote;
import java.rmi.RemoteException;

/** A greeter, which counts whom it greeted. */
public interface Greeter extends Remote {
    /** Greets a guest. */
    String greet(String guest) throws RemoteException;

    /** The number of greetings so far. */
    int count() throws RemoteException;

    /** Another greeter, which is kept as long as a client holds it. */
    Greeter friend() throws RemoteException;
}
