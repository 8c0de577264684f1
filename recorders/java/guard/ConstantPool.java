package armus;

import java.io.ByteArrayOutputStream;
import java.io.DataOutputStream;
import java.io.IOException;
import java.util.HashMap;
import java.util.Map;

/** The constants of a class file, to which more may be added behind the last one. Those that were there keep their numbers. */
final class ConstantPool {
    static final int HANDLE = 15;
    private static final int FIRST = 10;
    private static final int LONG = 5;
    private static final int DOUBLE = 6;
    private static final int CLASS = 7;
    private static final int METHOD = 10;
    private static final int INTERFACE_METHOD = 11;
    private static final int NAME_AND_TYPE = 12;
    private static final int MOST = 65535;
    /** The lengths of the constants by their tags; 0 where there is no such tag, and of a text the length without its bytes. */
    private static final int[] LENGTHS = {0, 3, 0, 5, 5, 9, 9, 3, 3, 5, 5, 5, 5, 0, 0, 4, 3, 5, 5, 3, 3};

    private final Bytes bytes;
    private final int[] starts;
    private final int end;
    private final ByteArrayOutputStream added = new ByteArrayOutputStream();
    private final DataOutputStream out = new DataOutputStream(added);
    private final Map<String, Integer> known = new HashMap<>();
    private int count;

    ConstantPool(Bytes bytes) throws IOException {
        this.bytes = bytes;
        count = bytes.two(FIRST - 2);
        starts = new int[count];
        int at = FIRST;
        for (int i = 1; i < count; i++) {
            starts[i] = at;
            int tag = bytes.one(at);
            int length = tag < LENGTHS.length ? LENGTHS[tag] : 0;
            if (length == 0) {
                throw new IOException("a constant of kind " + tag);
            }
            at += tag == 1 ? length + bytes.two(at + 1) : length;
            i += tag == LONG || tag == DOUBLE ? 1 : 0;            // these take two numbers
        }
        end = at;
    }

    /** Where the constants end, and the rest of the class begins. */
    int end() {
        return end;
    }

    int count() {
        return count;
    }

    int start(int constant) {
        return constant < starts.length ? starts[constant] : 0;
    }

    String text(int constant) {
        return bytes.text(starts[constant]);
    }

    String className(int constant) {
        return text(bytes.two(starts[constant] + 1));
    }

    boolean isMethod(int constant) {
        int tag = bytes.one(starts[constant]);
        return tag == METHOD || tag == INTERFACE_METHOD;
    }

    String ownerOf(int method) {
        return className(bytes.two(starts[method] + 1));
    }

    String nameOf(int method) {
        return text(bytes.two(starts[bytes.two(starts[method] + 3)] + 1));
    }

    String descriptorOf(int method) {
        return text(bytes.two(starts[bytes.two(starts[method] + 3)] + 3));
    }

    /** The number of a constant that names a method; it is added where it was not added before. */
    int method(String owner, String name, String descriptor) throws IOException {
        int of = pair(CLASS, text(owner), 0);
        return pair(METHOD, of, nameAndType(name, descriptor));
    }

    int nameAndType(String name, String descriptor) throws IOException {
        return pair(NAME_AND_TYPE, text(name), text(descriptor));
    }

    private int text(String text) throws IOException {
        Integer number = known.get("text " + text);
        if (number == null) {
            number = next();
            out.writeByte(1);
            out.writeUTF(text);
            known.put("text " + text, number);
        }
        return number;
    }

    private int pair(int tag, int first, int second) throws IOException {
        String key = tag + " " + first + " " + second;
        Integer number = known.get(key);
        if (number == null) {
            number = next();
            out.writeByte(tag);
            out.writeShort(first);
            if (tag != CLASS) {
                out.writeShort(second);
            }
            known.put(key, number);
        }
        return number;
    }

    private int next() throws IOException {
        if (count == MOST) {
            throw new IOException("no room for constants");
        }
        return count++;
    }

    /** The class file with the added constants. */
    byte[] whole() {
        bytes.putTwo(FIRST - 2, count);
        return bytes.with(end, added.toByteArray());
    }
}
