package interop;

import java.io.BufferedReader;
import java.io.ByteArrayOutputStream;
import java.io.InputStreamReader;
import java.io.ObjectOutputStream;
import java.lang.reflect.Proxy;
import java.rmi.Remote;
import java.rmi.server.RemoteObject;
import java.util.Arrays;
import sample.Counter;
import sample.Maker;

/**
 * A client that holds a counter which it had made: Holder PORT. It prints `made ID`, the object's identifier in hexadecimal digits, and then does
 * what each line of its input says, with a line that tells it: `add`, `drop`, which gives the counter up and keeps the maker, or `halt`.
 */
public final class Holder {
    /** How long an ObjID is, in bytes. */
    private static final int ID_LENGTH = 22;

    private static Maker maker;
    private static Counter counter;

    private Holder() {
    }

    /** The identifier of a stub's object. A reference ends with it and one byte. */
    private static String objectOf(Remote stub) throws Exception {
        ByteArrayOutputStream bytes = new ByteArrayOutputStream();
        ObjectOutputStream out = new ObjectOutputStream(bytes);
        ((RemoteObject) Proxy.getInvocationHandler(stub)).getRef().writeExternal(out);
        out.flush();
        byte[] written = bytes.toByteArray();
        StringBuilder digits = new StringBuilder();
        for (byte one : Arrays.copyOfRange(written, written.length - 1 - ID_LENGTH, written.length - 1)) {
            digits.append(String.format("%02x", one));
        }
        return digits.toString();
    }

    private static void say(String line) {
        System.out.println(line);
        System.out.flush();
    }

    private static void obey(String line) throws Exception {
        switch (line) {
            case "add" -> say("sum " + counter.add(1));
            case "drop" -> {
                counter = null;
                for (int i = 0; i < 5; i++) {
                    System.gc();
                    Thread.sleep(20);
                }
                say("dropped");
            }
            case "halt" -> Runtime.getRuntime().halt(0);
            default -> throw new IllegalArgumentException(line);
        }
    }

    public static void main(String[] words) throws Exception {
        maker = (Maker) Where.registry(Integer.parseInt(words[0])).lookup("maker");
        counter = maker.make();
        say("made " + objectOf(counter));
        BufferedReader input = new BufferedReader(new InputStreamReader(System.in));
        for (String line = input.readLine(); line != null; line = input.readLine()) {
            obey(line);
        }
        Runtime.getRuntime().halt(0);
    }
}
