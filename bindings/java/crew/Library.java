package crew;

import java.util.LinkedHashMap;
import java.util.Map;

/**
 * The proved calls of the crew planner, by their names in crew.h. Load the library first: {@code System.load} with the path of libcrewjni.so, or
 * {@code System.loadLibrary("crewjni")}, as on Android. {@link Desk} has the calls on a desk.
 */
public final class Library {
    private Library() {}

    /** What a call's numbers are named, each with a space behind it; null for a name that is none. */
    static native String numbers(String name);

    /** Makes a call: the desk's bytes, which it changes, or null; a number, or 0; slices in the header's order, filled where it writes. */
    static native long[] made(String name, byte[] desk, int number, byte[][] slices);

    /** A constant of crew.h, by its name there. */
    static native int constant(String name);

    static native String refusalText(int number);

    static native String groupText(int number);

    /** Makes a call of crew.h, and gives the numbers of its answer by their names; a refusal is one of them. */
    public static Map<String, Long> call(String name, byte[] desk, int number, byte[]... slices) {
        String names = numbers(name);
        if (names == null) {
            throw new IllegalArgumentException(name + " is no call of crew.h");
        }
        long[] values = made(name, desk, number, slices);
        Map<String, Long> told = new LinkedHashMap<>();
        int place = 0;
        for (String field : names.trim().split(" ")) {
            if (place < values.length) {
                told.put(field, values[place++]);
            }
        }
        return told;
    }

    /** Throws if a refusal is one. */
    static void check(long refusal) throws Refused {
        if (refusal != 0) {
            throw new Refused((int) refusal, groupText((int) refusal), refusalText((int) refusal));
        }
    }
}
