package kinds;

import java.io.Serializable;
import java.lang.reflect.InvocationHandler;
import java.lang.reflect.Method;

/** Handles the calls of a proxy that nobody calls. */
public final class Unused implements InvocationHandler, Serializable {
    private static final long serialVersionUID = 4;

    @Override
    public Object invoke(Object proxy, Method method, Object[] arguments) {
        throw new UnsupportedOperationException();
    }
}
