import java.io.IOException;
import java.nio.file.Files;
import java.nio.file.Path;
import java.nio.file.StandardOpenOption;
import java.util.Arrays;

/**
 * Measures the written cases of a folder and adds the shortest run of each to its results. In the time is the same as in
 * the program in Rust, which wrote the cases: one whole run from the script's bytes to the output's.
 */
final class Bench {
    private static final int OUTPUT = 1 << 22;
    private static final long WARM_UP = 3_000_000_000L;
    private static final long MEASURED = 1_000_000_000L;

    private final byte[] script;
    private final byte[] before;
    private final byte[] after;
    private final byte[] expected;
    private final byte[] memory;
    private final byte[] output = new byte[OUTPUT];

    private Bench(Path folder, String name) throws IOException {
        script = Files.readAllBytes(folder.resolve(name + ".script"));
        before = Files.readAllBytes(folder.resolve(name + ".memory"));
        after = Files.readAllBytes(folder.resolve(name + ".after"));
        expected = Files.readAllBytes(folder.resolve(name + ".output"));
        memory = new byte[before.length];
    }

    public static void main(String[] words) throws IOException {
        Path folder = Path.of(words[0]);
        for (String name : Files.readAllLines(folder.resolve("names"))) {
            Bench bench = new Bench(folder, name);
            bench.check();
            bench.shortest(WARM_UP);
            long shortest = bench.shortest(MEASURED);
            bench.check();
            String line = "java " + name + " " + shortest + "\n";
            Files.writeString(folder.resolve("results"), line, StandardOpenOption.APPEND);
        }
    }

    /** The shortest of all runs in a time. */
    private long shortest(long nanoseconds) {
        long end = System.nanoTime() + nanoseconds;
        long shortest = Long.MAX_VALUE;
        while (System.nanoTime() < end) {
            System.arraycopy(before, 0, memory, 0, memory.length);
            long start = System.nanoTime();
            Script.run(script, memory, output);
            shortest = Math.min(shortest, System.nanoTime() - start);
        }
        return shortest;
    }

    /** Output and memory must be those of the proved engine, in every byte. */
    private void check() {
        System.arraycopy(before, 0, memory, 0, memory.length);
        Arrays.fill(output, (byte) 0);
        int written = Script.run(script, memory, output);
        boolean same = Arrays.equals(output, 0, written, expected, 0, expected.length);
        if (!same || !Arrays.equals(memory, after)) {
            throw new IllegalStateException("the output differs from the proved engine's");
        }
    }
}
