package interop;

import java.io.IOException;
import java.io.ObjectStreamClass;
import java.io.PrintStream;
import java.lang.invoke.MethodType;
import java.lang.reflect.Constructor;
import java.lang.reflect.Field;
import java.lang.reflect.Method;
import java.nio.file.Files;
import java.nio.file.Path;
import shapes.Shapes;

/**
 * Writes the outline of each class of odd shape, as reflection tells its members: `Outlines FOLDER` writes it to FOLDER/NAME.outline, and prints NAME. Whether a
 * class has a static initializer is told by `ObjectStreamClass` alone, which has to be opened to this program.
 */
final class Outlines {
    private Outlines() {
    }

    private static String parameters(Class<?>... types) {
        return MethodType.methodType(void.class, types).toMethodDescriptorString();
    }

    private static boolean hasInitializer(Class<?> type) throws ReflectiveOperationException {
        Method asked = ObjectStreamClass.class.getDeclaredMethod("hasStaticInitializer", Class.class);
        asked.setAccessible(true);
        return (boolean) asked.invoke(null, type);
    }

    private static void write(PrintStream out, Class<?> type) throws ReflectiveOperationException {
        out.print("class " + type.getModifiers() + " " + type.getName() + "\n");
        for (Class<?> it : type.getInterfaces()) {
            out.print("interface " + it.getName() + "\n");
        }
        for (Field it : type.getDeclaredFields()) {
            out.print("field " + it.getModifiers() + " " + it.getName() + " " + it.getType().descriptorString() + "\n");
        }
        if (hasInitializer(type)) {
            out.print("clinit\n");
        }
        for (Constructor<?> it : type.getDeclaredConstructors()) {
            out.print("constructor " + it.getModifiers() + " " + parameters(it.getParameterTypes()) + "\n");
        }
        for (Method it : type.getDeclaredMethods()) {
            String descriptor = MethodType.methodType(it.getReturnType(), it.getParameterTypes()).toMethodDescriptorString();
            out.print("method " + it.getModifiers() + " " + it.getName() + " " + descriptor + "\n");
        }
    }

    public static void main(String[] words) throws IOException, ReflectiveOperationException {
        for (Class<?> type : Shapes.all()) {
            Path file = Path.of(words[0], type.getName() + ".outline");
            try (PrintStream out = new PrintStream(Files.newOutputStream(file), false, "US-ASCII")) {
                write(out, type);
            }
            System.out.println(type.getName());
        }
    }
}
