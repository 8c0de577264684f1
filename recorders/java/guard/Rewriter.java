package armus;

import java.io.IOException;

/** One class file in which the calls of the listed methods become static calls of Operations. An instruction keeps its length, so no offset, no line and no frame changes;
 * the constants that are needed stand behind those that were there. */
final class Rewriter {
    private static final int VIRTUAL = 182;
    private static final int STATIC = 184;
    private static final int INTERFACE = 185;
    private static final int TABLE_SWITCH = 170;
    private static final int LOOKUP_SWITCH = 171;
    private static final int WIDE = 196;
    private static final int INCREMENT = 132;
    private static final int HANDLE_OF_VIRTUAL = 5;
    private static final int HANDLE_OF_STATIC = 6;
    private static final int HANDLE_OF_INTERFACE = 9;
    private static final String OPERATIONS = "armus/Operations";
    /** The lengths of the instructions 0 to 201, one digit for each; 0 of those that tell it themselves. */
    private static final String LENGTHS = "1111111111111111" + "2323322222111111" + "1111111111111111" + "1111112222211111" + "1111111111111111" + "1111111111111111" + "1111111111111111"
        + "1111111111111111" + "1111311111111111" + "1111111113333333" + "3333333332001111" + "1133333335532311" + "3311043355";

    private final Bytes bytes;
    private final ConstantPool constants;
    private final Calls calls;
    private boolean changed;
    private boolean comesBack;

    /** bytes: a class file, which is changed. */
    Rewriter(byte[] bytes, Calls calls) throws IOException {
        this.bytes = new Bytes(bytes);
        this.calls = calls;
        constants = new ConstantPool(this.bytes);
    }

    /** The class as it is loaded, or nothing where it stays as it is. */
    byte[] rewritten() throws IOException {
        int at = constants.end() + 6;
        at = members(at + 2 + 2 * bytes.two(at), false);
        at = members(at, true);
        if (!comesBack) {
            handles(new References(bytes, constants, table(at)));
        }
        return changed ? constants.whole() : null;
    }

    private int members(int start, boolean methods) throws IOException {
        int at = start + 2;
        for (int i = bytes.two(start); i > 0; i--) {
            comesBack |= methods && constants.text(bytes.two(at + 2)).equals("$deserializeLambda$");
            at = attributes(at + 6, methods);
        }
        return at;
    }

    private int attributes(int start, boolean ofMethod) throws IOException {
        int at = start + 2;
        for (int i = bytes.two(start); i > 0; i--) {
            if (ofMethod && constants.text(bytes.two(at)).equals("Code")) {
                instructions(at + 14, bytes.four(at + 10));
            }
            at += 6 + bytes.four(at + 2);
        }
        return at;
    }

    /** Where the attribute of a class has its table of methods that make lambdas; 0 where it has none. */
    private int table(int start) {
        int at = start + 2;
        for (int i = bytes.two(start); i > 0; i--) {
            if (constants.text(bytes.two(at)).equals("BootstrapMethods")) {
                return at + 6;
            }
            at += 6 + bytes.four(at + 2);
        }
        return 0;
    }

    private void instructions(int start, int length) throws IOException {
        for (int i = 0; i < length;) {
            int at = start + i;
            int code = bytes.one(at);
            if (code == VIRTUAL || code == INTERFACE) {
                call(at, code);
            }
            i += lengthOf(start, i, code);
        }
    }

    private void call(int at, int code) throws IOException {
        String owner = listed(bytes.two(at + 1));
        if (owner != null) {
            bytes.putTwo(at + 1, stead(bytes.two(at + 1), owner));
            bytes.putOne(at, STATIC);
            if (code == INTERFACE) {
                bytes.putTwo(at + 3, 0);                          // two that do nothing
            }
            changed = true;
        }
    }

    private int lengthOf(int start, int i, int code) throws IOException {
        int padded = start + (i + 4 & ~3);
        int length = code < LENGTHS.length() ? LENGTHS.charAt(code) - '0' : 0;
        if (code == WIDE) {
            length = bytes.one(start + i + 1) == INCREMENT ? 6 : 4;
        } else if (code == TABLE_SWITCH) {
            length = padded + 12 + 4 * (bytes.four(padded + 8) - bytes.four(padded + 4) + 1) - start - i;
        } else if (code == LOOKUP_SWITCH) {
            length = padded + 8 + 8 * bytes.four(padded + 4) - start - i;
        }
        if (length <= 0) {
            throw new IOException("an instruction " + code);
        }
        return length;
    }

    /** The listed class whose method this constant names, or nothing. */
    private String listed(int method) throws IOException {
        return constants.isMethod(method) ? calls.owner(constants.ownerOf(method), constants.nameOf(method) + constants.descriptorOf(method)) : null;
    }

    /** The number of the method of Operations that stands for this one. */
    private int stead(int method, String owner) throws IOException {
        return constants.method(OPERATIONS, constants.nameOf(method), "(L" + owner + ";" + constants.descriptorOf(method).substring(1));
    }

    /** References to listed methods. Where the class may read such a one from a file, by its kind and its name, they stay. */
    private void handles(References references) throws IOException {
        for (int i = constants.count() - 1; i > 0; i--) {
            int at = constants.start(i);
            boolean isHandle = at > 0 && bytes.one(at) == ConstantPool.HANDLE && (bytes.one(at + 1) == HANDLE_OF_VIRTUAL || bytes.one(at + 1) == HANDLE_OF_INTERFACE);
            String owner = isHandle ? listed(bytes.two(at + 2)) : null;
            if (owner != null && references.isOfLambdas(i)) {
                references.capture(i, owner);
                bytes.putTwo(at + 2, stead(bytes.two(at + 2), owner));
                bytes.putOne(at + 1, HANDLE_OF_STATIC);
                changed = true;
            }
        }
    }
}
