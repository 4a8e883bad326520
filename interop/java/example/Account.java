package example;

import java.rmi.Remote;
import java.rmi.RemoteException;

/** A balance that begins at 0. */
public interface Account extends Remote {
    /** Adds an amount, and gives the new balance; or an ArithmeticException where that is past the ends of a long. */
    long add(long amount) throws RemoteException;
}
