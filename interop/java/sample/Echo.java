package sample;

import java.rmi.Remote;
import java.rmi.RemoteException;

/** Gives its argument back. */
public interface Echo extends Remote {
    Object echo(Object value) throws RemoteException;
}
