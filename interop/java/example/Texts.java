package example;

import java.rmi.Remote;
import java.rmi.RemoteException;

/** A list of texts that all clients share. */
public interface Texts extends Remote {
    /** Adds a text, and gives its place. */
    int add(String text) throws RemoteException;

    /** The text at a place. */
    String get(int place) throws RemoteException;

    /** All texts. */
    String[] all() throws RemoteException;
}
