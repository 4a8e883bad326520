package kinds;

import java.rmi.Remote;
import java.rmi.RemoteException;

/** Tells when its clients are gone, and makes objects that do so, too. */
public interface Keeper extends Remote {
    /** Says `rests`, waits for so many milliseconds, says `rested`, and gives how many times it was told until then that no client is left. */
    int rest(long milliseconds) throws RemoteException;

    /** A new object. */
    Keeper make() throws RemoteException;

    /** The object itself. */
    Object self() throws RemoteException;

    /** Two new objects, and the first one again. */
    Keeper[] several() throws RemoteException;

    /** Ends the server's process before there is an answer. */
    int halt() throws RemoteException;
}
