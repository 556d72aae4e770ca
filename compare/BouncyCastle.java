// Works the accepted calls of the file (compare/README.md) out with Bouncy Castle and compares the outputs; for Java 17 or later.
//   javac -cp /usr/share/java/bcprov.jar -d FOLDER compare/*.java && java -cp /usr/share/java/bcprov.jar:FOLDER BouncyCastle FILE
// Openings refused with 8 are worked out too: their tag has to be another. Bouncy Castle 1.72 takes every accepted call, and counts no runs.

import static org.bouncycastle.util.Arrays.concatenate;

import java.io.ByteArrayOutputStream;
import java.nio.charset.StandardCharsets;
import java.nio.file.*;
import java.util.*;
import org.bouncycastle.crypto.digests.CSHAKEDigest;
import org.bouncycastle.crypto.macs.KMAC;
import org.bouncycastle.crypto.params.KeyParameter;

public final class BouncyCastle {
    static final int AUTH_KEY = 32; // bytes: the authentication key of a seal
    static final int GENERATOR_KEY = 64;
    static final int PIECE = 208;
    static final String NOT_OFFERED = "the permutation and plans, which Bouncy Castle does not offer";
    static final String NOT_STARTED = "a session that could not start";

    /** A session that started: what it took, joined, and its accepted asks for output. */
    record Session(Call start, ByteArrayOutputStream message, List<Call> asks) {}

    final Map<String, Integer> agreed = new TreeMap<>();
    final Map<String, Integer> leftOut = new TreeMap<>();
    int differ;
    Optional<Session> session = Optional.empty();
    byte[] generatorKey;
    boolean kmacGenerator;

    /** One of the three functions; `first` is the name or the key. */
    static byte[] hash(String function, byte[] first, byte[] customisation, byte[] message, int length) {
        byte[] output = new byte[length];
        if (function.equals("cshake256")) {
            CSHAKEDigest digest = new CSHAKEDigest(256, first, customisation);
            digest.update(message, 0, message.length);
            digest.doFinal(output, 0, length);
            return output;
        }
        KMAC mac = new KMAC(256, customisation);
        mac.init(new KeyParameter(first));
        mac.update(message, 0, message.length);
        int written = function.equals("kmac256") ? mac.doFinal(output, 0, length) : mac.doOutput(output, 0, length); // doOutput is KMACXOF256
        return Arrays.copyOf(output, written);
    }

    /** The authentication key, then the text combined with the key stream. */
    static byte[] crypt(byte[] key, byte[] iv, byte[] text) {
        byte[] stream = hash("kmacxof256", key, iv, Call.NONE, AUTH_KEY + text.length);
        for (int i = 0; i < text.length; i++) {
            stream[AUTH_KEY + i] ^= text[i];
        }
        return stream;
    }

    static byte[] tag(byte[] crypted, byte[] ciphertext, byte[] label, int length) {
        return hash("kmacxof256", Arrays.copyOf(crypted, AUTH_KEY), Call.NONE, concatenate(ciphertext, label), length);
    }

    static boolean sealed(Call call) {
        byte[] crypted = crypt(call.bytes(0), call.bytes(1), call.bytes(2));
        byte[] ciphertext = Arrays.copyOfRange(crypted, AUTH_KEY, crypted.length);
        return call.answered(2, ciphertext) && call.answered(3, tag(crypted, ciphertext, call.bytes(3), call.number(5)));
    }

    static boolean opened(Call call) {
        byte[] ciphertext = call.bytes(2);
        byte[] given = call.bytes(5);
        byte[] crypted = crypt(call.bytes(0), call.bytes(1), ciphertext);
        boolean matches = Arrays.equals(given, tag(crypted, ciphertext, call.bytes(3), given.length));
        return call.answer()[0].equals("8") ? !matches : matches && call.answered(2, Arrays.copyOfRange(crypted, AUTH_KEY, crypted.length));
    }

    static byte[] encoded(byte[] string) {
        return concatenate(string, new byte[] {(byte) string.length});
    }

    /** The call that a seeding or a piece of a draw is made of: the key is KMACXOF256's key, or cSHAKE256's customisation. */
    byte[] generated(String purpose, byte[] message, int length) {
        byte[] named = ((kmacGenerator ? "KMAC-DRNG " : "cSHAKE-DRNG ") + purpose).getBytes(StandardCharsets.US_ASCII);
        return kmacGenerator ? hash("kmacxof256", generatorKey, named, message, length) : hash("cshake256", named, generatorKey, message, length);
    }

    boolean seeded(Call call) {
        generatorKey = generated("seed", concatenate(call.bytes(0), encoded(call.bytes(1))), GENERATOR_KEY);
        return call.answered(2, generatorKey);
    }

    boolean drawn(Call call) {
        byte[] output = new byte[call.number(1)];
        for (int at = 0; at < output.length; at += PIECE) {
            byte[] piece = generated("generate", encoded(call.bytes(0)), GENERATOR_KEY + PIECE);
            generatorKey = Arrays.copyOf(piece, GENERATOR_KEY);
            System.arraycopy(piece, GENERATOR_KEY, output, at, Math.min(PIECE, output.length - at));
        }
        return call.answered(2, output) && call.answered(3, generatorKey);
    }

    void counted(Call call, boolean same) {
        agreed.merge(call.entry(), same ? 1 : 0, Integer::sum);
        if (!same) {
            differ++;
            System.out.println("line " + call.line() + ": " + call.entry() + " differs from Bouncy Castle");
        }
    }

    /** Compares a session's outputs, joined, with the one call over its pieces, joined. */
    void compare(Session ended) {
        String function = ended.start.entry().substring("session_".length());
        int total = ended.asks.stream().mapToInt(ask -> ask.number(0)).sum();
        byte[] output = hash(function, ended.start.bytes(0), ended.start.bytes(1), ended.message.toByteArray(), total);
        int at = 0;
        for (Call ask : ended.asks) {
            counted(ask, ask.answered(1, Arrays.copyOfRange(output, at, at + ask.number(0))));
            at += ask.number(0);
        }
    }

    void leaveOut(String reason) {
        leftOut.merge(reason, 1, Integer::sum);
    }

    void read(Call call) {
        boolean refused = !Set.of("0", "8").contains(call.answer()[0]);
        switch (call.entry()) {
            case "generator_fresh", "kmac_generator_fresh" -> {
                kmacGenerator = call.entry().startsWith("kmac");
                generatorKey = new byte[GENERATOR_KEY];
            }
            case "session_cshake256", "session_kmacxof256" -> {
                session.ifPresent(this::compare);
                session = refused ? Optional.empty() : Optional.of(new Session(call, new ByteArrayOutputStream(), new ArrayList<>()));
            }
            case "take", "give", "seal", "open", "seed", "draw", "cshake256", "kmac256", "kmacxof256" -> work(refused ? "refused" : call.entry(), call);
            case "keccak_p", "plan_read", "plan_destination", "plan_row", "plan_length", "plan_write", "plan_migrated_length", "plan_migrate",
                "plan_start", "plan_step", "hall_read", "hall_destination", "hall_read_into", "hall_length", "hall_write" -> leaveOut(NOT_OFFERED);
            default -> throw new IllegalArgumentException("line " + call.line() + ": there is no entry " + call.entry());
        }
    }

    void work(String kind, Call call) {
        switch (kind) {
            case "refused" -> leaveOut("refused");
            case "take" -> session.ifPresentOrElse(one -> one.message.writeBytes(call.bytes(0)), () -> leaveOut(NOT_STARTED));
            case "give" -> session.ifPresentOrElse(one -> one.asks.add(call), () -> leaveOut(NOT_STARTED));
            case "seal" -> counted(call, sealed(call));
            case "open" -> counted(call, opened(call));
            case "seed" -> counted(call, seeded(call));
            case "draw" -> counted(call, drawn(call));
            default -> counted(call, call.answered(2, hash(call.entry(), call.bytes(0), call.bytes(1), call.bytes(2), call.number(3))));
        }
    }

    public static void main(String[] arguments) throws java.io.IOException {
        BouncyCastle reader = new BouncyCastle();
        int line = 0;
        for (String text : Files.readAllLines(Path.of(arguments[0]), StandardCharsets.US_ASCII)) {
            reader.read(Call.of(++line, text));
        }
        reader.session.ifPresent(reader::compare);
        reader.agreed.forEach((entry, count) -> System.out.println(entry + ": " + count + " agree"));
        reader.leftOut.forEach((reason, count) -> System.out.println("left out: " + count + " (" + reason + ")"));
        int agreed = reader.agreed.values().stream().mapToInt(Integer::intValue).sum();
        System.out.println("Bouncy Castle: " + agreed + " lines agree, " + reader.differ + " differ");
        System.exit(reader.differ == 0 && agreed > 0 ? 0 : 1);
    }
}
