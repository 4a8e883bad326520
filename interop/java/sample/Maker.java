package sample;

import java.rmi.Remote;
import java.rmi.RemoteException;

/** Gives a new counter at each call. */
public interface Maker extends Remote {
    Counter make() throws RemoteException;
}
