import java.util.Arrays;

/** Runs scripts that open accounts and run batches. Whatever else a script holds is refused with an exception. */
final class Script {
    private static final int HEAD = 14;
    private static final int OPENING = 1 + 23;
    private static final int ORDER = 26;
    private static final int MOST_ORDERS = 64;
    private static final byte ANSWER_FILL = 15;
    private static final byte END = (byte) 255;

    private Script() {}

    /** Runs a script to its end, and answers how many bytes of the output were written. */
    static int run(byte[] script, byte[] memory, byte[] output) {
        check(script);
        boolean byClass = script[2] == 3;
        Policy policy = byClass
                ? new Policy(Bytes.u8(script, 3), Bytes.u8(script, 4), Bytes.u8(script, 5))
                : new Policy(0, Bytes.u8(script, 2), Bytes.u8(script, 2));
        Book book = new Book(new Strip(memory, Bytes.i64(script, 6)), policy);
        int at = HEAD;
        int told = 0;
        while (at < script.length) {
            if (script[at] == 1) {
                output[told] = 1;
                output[told + 1] = (byte) open(book, script, at + 1);
                told += 2;
                at += OPENING;
            } else {
                batch(book, script, at, output, told);
                told += 10 + script[at + 2];
                at += 3 + ORDER * script[at + 1];
            }
        }
        return end(book.strip, output, told);
    }

    /** Turns down what is wrong or not covered. */
    private static void check(byte[] script) {
        require(script.length >= HEAD && script[0] == 1 && script[1] == 1, "a head over a strip");
        int at = HEAD;
        while (at < script.length) {
            int call = script[at];
            require(call == 1 || call == 2, "openings and batches");
            at = call == 1 ? at + OPENING : checkBatch(script, at);
        }
        require(at == script.length, "a script that is not cut");
    }

    private static int checkBatch(byte[] script, int at) {
        require(script.length - at >= 3, "a script that is not cut");
        int orders = Bytes.u8(script, at + 1);
        int answers = Bytes.u8(script, at + 2);
        require(orders <= MOST_ORDERS && answers <= MOST_ORDERS && answers >= orders, "short lists");
        int order = at + 3;
        int after = order + ORDER * orders;
        require(after <= script.length, "a script that is not cut");
        for (; order < after; order += ORDER) {
            int kind = script[order + 5];
            require(script[order + 4] == 0 && kind >= 2 && kind <= 4, "unlinked orders, no voids");
            require(kind != Balances.RESERVE || Bytes.i32(script, order + 22) == 0, "no deadlines");
        }
        return after;
    }

    private static void require(boolean condition, String what) {
        if (!condition) {
            throw new UnsupportedOperationException("covered are only: " + what);
        }
    }

    private static int open(Book book, byte[] script, int at) {
        return book.open(Bytes.i32(script, at), Bytes.u16(script, at + 4), Bytes.u8(script, at + 6),
                Bytes.i64(script, at + 7), Bytes.i64(script, at + 15));
    }

    private static void batch(Book book, byte[] script, int at, byte[] output, int told) {
        int orders = script[at + 1];
        int answers = told + 10;
        Arrays.fill(output, answers, answers + script[at + 2], ANSWER_FILL);
        int taken = 0;
        for (int place = 0; place < orders; place++) {
            int order = at + 3 + ORDER * place;
            int refusal = book.run(script[order + 5], Bytes.i32(script, order),
                    Bytes.i32(script, order + 6), Bytes.i32(script, order + 10),
                    Bytes.i64(script, order + 14));
            output[answers + place] = (byte) refusal;
            taken += refusal == 0 ? 1 : 0;
        }
        output[told] = 2;
        output[told + 1] = 0;
        Bytes.put64(output, told + 2, taken);
    }

    private static int end(Strip strip, byte[] output, int told) {
        int length = Strip.RECORD * strip.count;
        output[told] = END;
        Bytes.put64(output, told + 1, strip.count);
        Bytes.put64(output, told + 9, strip.room - strip.count);
        System.arraycopy(strip.memory, 1, output, told + 17, length);
        Bytes.put64(output, told + 17 + length, 1 + length);
        return told + 25 + length;
    }
}
