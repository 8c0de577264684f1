package armus;

import java.io.IOException;
import java.util.ArrayList;
import java.util.HashMap;
import java.util.HashSet;
import java.util.List;
import java.util.Map;
import java.util.Set;

/** The references to methods in a class file, as Thread::join, of which the library makes lambdas. One that captures the object says of which class it is. Of a static method
 * this has to be just the class that the method takes, which is above the one that was said. */
final class References {
    private static final int DYNAMIC = 18;
    private static final int HANDLE = 15;
    private static final String FACTORY = "java/lang/invoke/LambdaMetafactory";

    private final Bytes bytes;
    private final ConstantPool constants;
    /** The lambdas that are made from a handle: the constants that say what they capture. */
    private final Map<Integer, List<Integer>> lambdas = new HashMap<>();
    private final Set<Integer> others = new HashSet<>();

    /** table: where the methods that make lambdas and the like stand; 0 where there are none. */
    References(Bytes bytes, ConstantPool constants, int table) {
        this.bytes = bytes;
        this.constants = constants;
        int[] starts = starts(table);
        for (int i = 1; i < constants.count(); i++) {
            int at = constants.start(i);
            if (at > 0 && bytes.one(at) == DYNAMIC && bytes.two(at + 1) < starts.length) {
                learn(starts[bytes.two(at + 1)], i);
            }
        }
    }

    private int[] starts(int table) {
        int[] starts = new int[table == 0 ? 0 : bytes.two(table)];
        int at = table + 2;
        for (int i = 0; i < starts.length; i++) {
            starts[i] = at;
            at += 4 + 2 * bytes.two(at + 2);
        }
        return starts;
    }

    private void learn(int start, int lambda) {
        int made = bytes.two(constants.start(bytes.two(start)) + 2);
        boolean isLambda = constants.ownerOf(made).equals(FACTORY);
        for (int i = bytes.two(start + 2); i > 0; i--) {
            int argument = bytes.two(start + 2 + 2 * i);
            if (bytes.one(constants.start(argument)) == HANDLE) {
                lambdas.computeIfAbsent(argument, a -> new ArrayList<>()).add(lambda);
                if (!isLambda) {
                    others.add(argument);
                }
            }
        }
    }

    /** Whether this handle serves lambdas alone. */
    boolean isOfLambdas(int handle) {
        return lambdas.containsKey(handle) && !others.contains(handle);
    }

    /** Its lambdas capture an object of this class, where they capture one. */
    void capture(int handle, String owner) throws IOException {
        for (int lambda : lambdas.get(handle)) {
            String descriptor = constants.descriptorOf(lambda);
            if (descriptor.charAt(1) == 'L') {
                bytes.putTwo(constants.start(lambda) + 3, constants.nameAndType(constants.nameOf(lambda), "(L" + owner + descriptor.substring(descriptor.indexOf(';'))));
            }
        }
    }
}
