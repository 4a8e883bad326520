package interop;

import java.io.Serializable;
import java.lang.reflect.Array;
import java.lang.reflect.Field;
import java.lang.reflect.Modifier;
import java.util.Arrays;
import java.util.Collection;
import java.util.IdentityHashMap;
import java.util.Iterator;
import java.util.LinkedHashMap;
import java.util.Map;
import java.util.Objects;
import java.util.Set;
import java.util.SortedMap;
import java.util.SortedSet;

/**
 * Whether two graphs of objects are the same: the same classes and contents at each place, and two places have one object in the one graph exactly
 * where they have one in the other.
 */
final class Same {
    private final Map<Object, Object> there = new IdentityHashMap<>();
    private final Map<Object, Object> back = new IdentityHashMap<>();

    private Same() {
    }

    /** Throws where the graphs differ, with the place. */
    static void compare(Object wanted, Object seen) {
        new Same().value(wanted, seen, "");
    }

    private static void differ(String place, Object wanted, Object seen) {
        throw new AssertionError("at '" + place + "': seen " + text(seen) + ", wanted " + text(wanted));
    }

    private static String text(Object it) {
        String text = it == null ? "null" : it.getClass().getName() + " " + it;
        return text.length() > 200 ? text.substring(0, 200) + ".." : text;
    }

    private void value(Object wanted, Object seen, String place) {
        if (wanted == null || seen == null || wanted.getClass() != seen.getClass()) {
            if (wanted != seen) {
                differ(place, wanted, seen);
            }
            return;
        }
        if (wanted instanceof Enum || wanted instanceof Class) {
            if (wanted != seen) {
                differ(place, wanted, seen);
            }
            return;
        }
        Object before = there.put(wanted, seen);
        Object wantedBefore = back.put(seen, wanted);
        if (before != null || wantedBefore != null) {
            if (before != seen || wantedBefore != wanted) {
                differ(place + " (shared)", wanted, seen);
            }
            return;
        }
        contents(wanted, seen, place);
    }

    private void contents(Object wanted, Object seen, String place) {
        if (wanted.getClass().isArray()) {
            array(wanted, seen, place);
        } else if (wanted instanceof Map) {
            map((Map<?, ?>) wanted, (Map<?, ?>) seen, place);
        } else if (wanted instanceof Collection && (!(wanted instanceof Set) || wanted instanceof SortedSet)) {
            elements((Collection<?>) wanted, (Collection<?>) seen, place);
        } else if (wanted instanceof Throwable) {
            throwable((Throwable) wanted, (Throwable) seen, place);
        } else if (wanted.getClass().getPackage() != Same.class.getPackage()) {
            if (!wanted.equals(seen)) {
                differ(place, wanted, seen);
            }
        } else {
            fields(wanted, seen, place);
        }
    }

    private void array(Object wanted, Object seen, String place) {
        int length = Array.getLength(wanted);
        if (length != Array.getLength(seen)) {
            differ(place + ".length", length, Array.getLength(seen));
        }
        if (wanted.getClass().getComponentType().isPrimitive()) {
            if (!Objects.deepEquals(wanted, seen)) {
                differ(place, wanted, seen);
            }
            return;
        }
        for (int i = 0; i < length; i++) {
            value(Array.get(wanted, i), Array.get(seen, i), place + "[" + i + "]");
        }
    }

    private void elements(Collection<?> wanted, Collection<?> seen, String place) {
        if (wanted.size() != seen.size()) {
            differ(place + ".size", wanted.size(), seen.size());
        }
        Iterator<?> other = seen.iterator();
        int at = 0;
        for (Object element : wanted) {
            value(element, other.next(), place + "[" + at++ + "]");
        }
    }

    private void map(Map<?, ?> wanted, Map<?, ?> seen, String place) {
        if (wanted.size() != seen.size()) {
            differ(place + ".size", wanted.size(), seen.size());
        }
        if (wanted instanceof SortedMap || wanted instanceof LinkedHashMap) {
            elements(Arrays.asList(wanted.keySet().toArray()), Arrays.asList(seen.keySet().toArray()), place + ".keys");
        }
        for (Map.Entry<?, ?> entry : wanted.entrySet()) {
            Object key = entry.getKey();
            if (!seen.containsKey(key)) {
                differ(place + ".key", key, null);
            }
            value(entry.getValue(), seen.get(key), place + "{" + key + "}");
        }
    }

    private void throwable(Throwable wanted, Throwable seen, String place) {
        value(wanted.getMessage(), seen.getMessage(), place + ".message");
        if (!Arrays.equals(wanted.getStackTrace(), seen.getStackTrace())) {
            differ(place + ".stack", Arrays.toString(wanted.getStackTrace()), Arrays.toString(seen.getStackTrace()));
        }
        value(wanted.getCause(), seen.getCause(), place + ".cause");
        array(wanted.getSuppressed(), seen.getSuppressed(), place + ".suppressed");
    }

    /** Compares what is serialized of an object of this package. */
    private void fields(Object wanted, Object seen, String place) {
        for (Class<?> type = wanted.getClass(); Serializable.class.isAssignableFrom(type); type = type.getSuperclass()) {
            for (Field field : type.getDeclaredFields()) {
                if ((field.getModifiers() & (Modifier.STATIC | Modifier.TRANSIENT)) != 0) {
                    continue;
                }
                field(field, wanted, seen, place + "." + field.getName());
            }
        }
    }

    private void field(Field field, Object wanted, Object seen, String place) {
        try {
            field.setAccessible(true);
            Object a = field.get(wanted);
            Object b = field.get(seen);
            if (!field.getType().isPrimitive()) {
                value(a, b, place);
            } else if (!a.equals(b)) {
                differ(place, a, b);
            }
        } catch (IllegalAccessException e) {
            throw new AssertionError(e);
        }
    }
}
