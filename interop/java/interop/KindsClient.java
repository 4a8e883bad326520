package interop;

import java.io.BufferedReader;
import java.io.InputStreamReader;
import java.io.PrintStream;
import java.lang.invoke.MethodType;
import java.lang.reflect.InvocationTargetException;
import java.lang.reflect.Method;
import java.nio.charset.StandardCharsets;
import java.rmi.Remote;
import java.rmi.registry.LocateRegistry;
import java.rmi.registry.Registry;
import java.util.Arrays;

/**
 * Java's own client: KindsClient HOST PORT. Each line of its input is a call, a bound name, a method's name and descriptor and the arguments, with tabs between
 * them. For each it prints a line: `void`, a number, `true`, `false`, `null`, a text in quotes, in which each unit that is no plain ASCII is written as its number, the name of
 * another object's class, or `remote fault `, the class of the exception, and behind a colon its own message.
 */
public final class KindsClient {
    private KindsClient() {
    }

    private static Method methodOf(Remote stub, String text) {
        for (Class<?> type : stub.getClass().getInterfaces()) {
            for (Method method : type.getMethods()) {
                MethodType shape = MethodType.methodType(method.getReturnType(), method.getParameterTypes());
                if (text.equals(method.getName() + shape.toMethodDescriptorString())) {
                    return method;
                }
            }
        }
        throw new IllegalArgumentException(text);
    }

    private static Object argumentOf(Class<?> type, String word) {
        if (!type.isPrimitive()) {
            return word;
        }
        if (type == boolean.class) {
            return Boolean.valueOf(word);
        }
        long number = Long.parseLong(word.replace('~', '-'));
        return switch (type.getName()) {
            case "byte" -> (byte) number;
            case "short" -> (short) number;
            case "int" -> (int) number;
            case "char" -> (char) number;
            default -> number;
        };
    }

    private static String quoted(String text) {
        StringBuilder line = new StringBuilder("\"");
        for (char unit : text.toCharArray()) {
            boolean isPlain = unit > ' ' && unit <= '~' && unit != '"' && unit != '\\';
            line.append(isPlain ? String.valueOf(unit) : String.format("\\u%04x", (int) unit));
        }
        return line.append('"').toString();
    }

    private static String lineOf(Method method, Object result) {
        if (method.getReturnType() == void.class) {
            return "void";
        }
        if (result instanceof String text) {
            return quoted(text);
        }
        if (result instanceof Character unit) {
            return String.valueOf((int) unit);
        }
        return result == null || method.getReturnType().isPrimitive() ? String.valueOf(result) : result.getClass().getName();
    }

    /** An exception as its class and its own message: Java's remote exceptions show that of their cause behind it. */
    private static String faultOf(Throwable fault) {
        String message = fault.getMessage();
        if (message != null && message.contains("; nested exception is:")) {
            message = message.substring(0, message.indexOf("; nested exception is:"));
        }
        return "remote fault " + fault.getClass().getName() + (message == null ? "" : ": " + message);
    }

    private static String called(Registry registry, String[] words) throws Exception {
        Remote stub = registry.lookup(words[0]);
        Method method = methodOf(stub, words[1]);
        Object[] arguments = new Object[words.length - 2];
        Arrays.setAll(arguments, at -> argumentOf(method.getParameterTypes()[at], words[at + 2]));
        try {
            return lineOf(method, method.invoke(stub, arguments));
        } catch (InvocationTargetException thrown) {
            return faultOf(thrown.getCause());
        }
    }

    public static void main(String[] words) throws Exception {
        PrintStream out = new PrintStream(System.out, true, StandardCharsets.UTF_8);
        Registry registry = LocateRegistry.getRegistry(words[0], Integer.parseInt(words[1]));
        BufferedReader input = new BufferedReader(new InputStreamReader(System.in, StandardCharsets.UTF_8));
        for (String line = input.readLine(); line != null; line = input.readLine()) {
            out.println(called(registry, line.split("\t", -1)));
        }
        Runtime.getRuntime().halt(0);
    }
}
