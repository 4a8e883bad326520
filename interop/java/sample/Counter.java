package sample;

import java.rmi.Remote;
import java.rmi.RemoteException;

/** A number that begins at 0. */
public interface Counter extends Remote {
    /** Adds to the number, and gives the sum; or an ArithmeticException where that is past the ends of a long. */
    long add(long number) throws RemoteException;

    long get() throws RemoteException;
}
