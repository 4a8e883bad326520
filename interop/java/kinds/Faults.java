package kinds;

import java.rmi.Remote;
import java.rmi.RemoteException;

/** Methods that end with an exception. */
public interface Faults extends Remote {
    /** The application's own, with this message. */
    void refuse(String message) throws RemoteException, Refusal;

    /** An unchecked one, with the message of these units. */
    int fail(String units) throws RemoteException;

    /** An unchecked one without a message. */
    String failSilently() throws RemoteException;

    /** One that was caused by another one, so often. */
    void failFor(int causes) throws RemoteException;

    /** An error of the server's virtual machine. */
    void exhaust() throws RemoteException;

    /** One of Java's remote method invocation itself. */
    void refuseRemotely(String message) throws RemoteException;
}
