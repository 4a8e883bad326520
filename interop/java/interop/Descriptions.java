package interop;

import static interop.Checks.check;
import static interop.Checks.equal;

import java.io.ByteArrayInputStream;
import java.io.ByteArrayOutputStream;
import java.io.ObjectInputStream;
import java.io.ObjectStreamClass;
import java.io.ObjectStreamField;
import java.lang.reflect.Modifier;
import java.nio.file.Files;
import java.nio.file.Path;
import java.util.ArrayList;
import java.util.List;
import shapes.Shapes;

/** Reads the description of each class of odd shape: `Descriptions FOLDER` reads the streams FOLDER/NAME.description. */
final class Descriptions {
    /** The length of a stream's header. */
    private static final int HEADER = 4;

    private Descriptions() {
    }

    private static Object read(byte[] stream) throws Exception {
        try (ObjectInputStream in = new ObjectInputStream(new ByteArrayInputStream(stream))) {
            Object it = in.readObject();
            equal(-1, in.read());
            return it;
        }
    }

    private static List<String> fields(ObjectStreamClass described) {
        List<String> fields = new ArrayList<>();
        for (ObjectStreamField it : described.getFields()) {
            fields.add(it.getTypeCode() + " " + it.getName() + " " + it.getTypeString());
        }
        return fields;
    }

    /** How many bytes a field's zero takes; a null reference takes one. */
    private static int size(char code) {
        return switch (code) {
            case 'D', 'J' -> 8;
            case 'F', 'I' -> 4;
            case 'C', 'S' -> 2;
            default -> 1;
        };
    }

    /** The stream of an object of the described class, of which each field is zero or null. */
    private static byte[] object(byte[] description, ObjectStreamClass described) {
        ByteArrayOutputStream out = new ByteArrayOutputStream();
        out.write(description, 0, HEADER);
        out.write('s');
        out.write(description, HEADER, description.length - HEADER);
        for (ObjectStreamField it : described.getFields()) {
            if (it.isPrimitive()) {
                out.writeBytes(new byte[size(it.getTypeCode())]);
            } else {
                out.write('p');
            }
        }
        return out.toByteArray();
    }

    public static void main(String[] words) throws Exception {
        for (Class<?> type : Shapes.all()) {
            byte[] description = Files.readAllBytes(Path.of(words[0], type.getName() + ".description"));
            ObjectStreamClass own = ObjectStreamClass.lookup(type);
            check("a Java reader takes the description of " + type.getName(), () -> {
                ObjectStreamClass described = (ObjectStreamClass) read(description);
                equal(own.getName(), described.getName());
                equal(own.getSerialVersionUID(), described.getSerialVersionUID());
                equal(fields(own), fields(described));
                equal(type, described.forClass());
            });
            if (!Modifier.isAbstract(type.getModifiers())) {
                check("a Java reader takes an object with the description of " + type.getName(), () -> equal(type, read(object(description, own)).getClass()));
            }
        }
        System.exit(Checks.failed() == 0 ? 0 : 1);
    }
}
