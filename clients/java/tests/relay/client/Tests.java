package relay.client;

import java.lang.reflect.InvocationTargetException;
import java.lang.reflect.Method;
import java.util.List;
import java.util.Objects;

/** Runs each method of the test classes that has no parameter, and counts those that fail. */
final class Tests {
    private static final List<Class<?>> CLASSES =
            List.of(ValuesTest.class, KnownTest.class, AgreementTest.class, BoardTest.class);

    private Tests() {}

    public static void main(String[] words) throws IllegalAccessException {
        int passed = 0;
        int failed = 0;
        for (Class<?> one : CLASSES) {
            for (Method test : one.getDeclaredMethods()) {
                if (test.getParameterCount() > 0 || test.isSynthetic() || !isTest(test)) continue;
                try {
                    test.invoke(null);
                    passed++;
                } catch (InvocationTargetException error) {
                    failed++;
                    System.err.println("FAILED " + one.getSimpleName() + "." + test.getName());
                    error.getCause().printStackTrace();
                }
            }
        }
        System.out.println("Java: " + passed + " passed, " + failed + " failed");
        System.exit(failed > 0 ? 1 : 0);
    }

    private static boolean isTest(Method method) {
        return method.getReturnType() == void.class;
    }

    static void equal(Object wanted, Object found) {
        if (!Objects.equals(wanted, found)) {
            throw new AssertionError("wanted " + wanted + ", and found " + found);
        }
    }

    static void fails(Class<? extends Throwable> wanted, Runnable act) {
        try {
            act.run();
        } catch (RuntimeException error) {
            Throwable cause = error;
            while (!wanted.isInstance(cause) && cause.getCause() != null) cause = cause.getCause();
            if (wanted.isInstance(cause)) return;
            throw error;
        }
        throw new AssertionError("wanted " + wanted.getSimpleName());
    }
}
