// A line of the file of calls (compare/README.md), and what its fields stand for.

import java.util.Arrays;
import java.util.HexFormat;
import java.util.zip.CRC32;

/** The fields before and after the `=`. */
record Call(int line, String entry, String[] given, String[] answer) {
    static final byte[] NONE = {};

    static Call of(int line, String text) {
        String[] sides = text.split(" = ?", -1);
        String[] call = sides[0].split(" ");
        return new Call(line, call[0], Arrays.copyOfRange(call, 1, call.length), sides[1].split(" "));
    }

    byte[] bytes(int place) {
        return bytesOf(given[place]);
    }

    int number(int place) {
        return Integer.parseInt(given[place]);
    }

    /** Bytes as the file gives them: `-`, hexadecimal digits, or `*LENGTH:SEED`. */
    static byte[] bytesOf(String field) {
        if (!field.startsWith("*")) {
            return field.equals("-") ? NONE : HexFormat.of().parseHex(field);
        }
        String[] parts = field.substring(1).split(":");
        byte[] content = new byte[Integer.parseInt(parts[0])];
        int seed = Integer.parseInt(parts[1]);
        for (int i = 0; i < content.length; i++) {
            content[i] = (byte) (seed + 7 * i + i / 256);
        }
        return content;
    }

    /** Whether an output is the one that this field of the answer shows. */
    boolean answered(int place, byte[] output) {
        CRC32 sum = new CRC32();
        sum.update(output);
        String shown = String.format("%%%d:%08x", output.length, sum.getValue());
        return answer[place].startsWith("%") ? answer[place].equals(shown) : Arrays.equals(bytesOf(answer[place]), output);
    }
}
