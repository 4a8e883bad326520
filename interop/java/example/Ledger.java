package example;

import java.rmi.Remote;
import java.rmi.RemoteException;

/** Accounts, of which each is kept as long as a client holds it. */
public interface Ledger extends Remote {
    /** Opens an account with the balance 0. */
    Account open() throws RemoteException;

    /** The sum of all balances. */
    long total() throws RemoteException;
}
