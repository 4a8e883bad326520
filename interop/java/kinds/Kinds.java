package kinds;

import java.rmi.Remote;
import java.rmi.RemoteException;
import java.rmi.registry.Registry;
import java.util.List;

/** A method for each kind of parameter and of result. */
public interface Kinds extends Remote {
    /** What the server was given, as Java writes it, with commas between: a character by its number. */
    String shown(boolean truth, byte small, short few, int some, long many, char sign, String text) throws RemoteException;

    /** What it is given, with commas between: numbers stand between texts. */
    String mixed(String first, int some, String second, long many, boolean truth, String third) throws RemoteException;

    /** The sum of more numbers than a short block of data has room for. */
    long sum(long a, long b, long c, long d, long e, long f, long g, long h, long i, long j, long k, long l, long m, long n, long o, long p, long q, long r,
            long s, long t, long u, long v, long w, long x, long y, long z, int last) throws RemoteException;

    /** The 16-bit units of a text, each in four hexadecimal digits. */
    String units(String text) throws RemoteException;

    /** The text of these units. */
    String text(String units) throws RemoteException;

    boolean same(boolean value) throws RemoteException;

    byte same(byte value) throws RemoteException;

    short same(short value) throws RemoteException;

    int same(int value) throws RemoteException;

    long same(long value) throws RemoteException;

    char same(char value) throws RemoteException;

    Object same(Object value) throws RemoteException;

    void nothing() throws RemoteException;

    String noText() throws RemoteException;

    Object noObject() throws RemoteException;

    Kinds noReference() throws RemoteException;

    Object boxed() throws RemoteException;

    int[] numbers() throws RemoteException;

    byte[] bytes() throws RemoteException;

    boolean[][] table() throws RemoteException;

    String[] texts() throws RemoteException;

    /** A list, which writes its elements itself. */
    List<String> list() throws RemoteException;

    /** An object of a proxy class that is no reference. */
    Object proxy() throws RemoteException;

    /** A reference to an object at another port than this one's. */
    Registry registry() throws RemoteException;

    Node ring() throws RemoteException;

    Fields fields() throws RemoteException;

    Thread.State constant() throws RemoteException;

    Class<?> type() throws RemoteException;

    /** A list of nodes, each of which has the next one, of so many. */
    Node chain(int length) throws RemoteException;

    /** An externalizable value. */
    Object duration() throws RemoteException;

    /** A value that can't be serialized. */
    Object broken() throws RemoteException;

    double real() throws RemoteException;

    float realOf(float value) throws RemoteException;
}
