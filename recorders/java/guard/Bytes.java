package armus;

import java.nio.charset.StandardCharsets;

/** The bytes of a class file, with its numbers, whose first byte is the highest. */
final class Bytes {
    private final byte[] bytes;

    Bytes(byte[] bytes) {
        this.bytes = bytes;
    }

    int one(int at) {
        return bytes[at] & 255;
    }

    int two(int at) {
        return one(at) << 8 | one(at + 1);
    }

    int four(int at) {
        return two(at) << 16 | two(at + 2);
    }

    void putOne(int at, int value) {
        bytes[at] = (byte) value;
    }

    void putTwo(int at, int value) {
        putOne(at, value >> 8);
        putOne(at + 1, value);
    }

    /** The text of a constant that begins here. What is not in ASCII may come out otherwise; no listed name is so. */
    String text(int at) {
        return new String(bytes, at + 3, two(at + 1), StandardCharsets.UTF_8);
    }

    /** These bytes with others between, in front of a place. */
    byte[] with(int at, byte[] between) {
        byte[] whole = new byte[bytes.length + between.length];
        System.arraycopy(bytes, 0, whole, 0, at);
        System.arraycopy(between, 0, whole, at, between.length);
        System.arraycopy(bytes, at, whole, at + between.length, bytes.length - at);
        return whole;
    }
}
