import java.util.Arrays;
import java.util.concurrent.Phaser;

/**
 * The row of crates/chunked_stencil by threads that meet at a phaser of Java: java Chunks.java WORKERS CELLS PIECES STEPS
 * ROUNDS
 *
 * <p>Each thread keeps pieces of the row, and puts their border cells into a table before each step. Printed is the same
 * line; and on standard error the shortest time of all rounds, in which the threads are started and joined.
 */
class Chunks {
    static final int GREATEST = 1_000_000;

    static int[] firstRow(int cells) {
        int[] row = new int[cells];
        Arrays.setAll(row, place -> (int) (place % 1_000L * 7_919 % (GREATEST + 1)));
        return row;
    }

    static void step(int left, int[] piece, int right) {
        int last = piece.length - 1;
        int before = left;
        for (int place = 0; place < last; place++) {
            int own = piece[place];
            piece[place] = (before + 2 * own + piece[place + 1]) >>> 2;
            before = own;
        }
        piece[last] = (before + 2 * piece[last] + right) >>> 2;
    }

    /** Before step t the border cells stand in table t % 2: of each piece its first and its last. */
    static void work(Phaser all, int[][] pieces, int[][] tables, int from, int to, int steps) {
        for (int step = 0; step < steps; step++) {
            int[] table = tables[step % 2];
            for (int piece = from; piece < to; piece++) {
                table[2 * piece + 1] = pieces[piece][0];
                table[2 * piece + 2] = pieces[piece][pieces[piece].length - 1];
            }
            all.arriveAndAwaitAdvance();
            for (int piece = from; piece < to; piece++) {
                step(table[2 * piece], pieces[piece], table[2 * piece + 3]);
            }
        }
    }

    static void go(int[][] pieces, int steps, int workers) throws InterruptedException {
        // Outside the row, in the first and the last place, a cell is 0.
        int[][] tables = new int[2][2 * pieces.length + 2];
        int size = (pieces.length + workers - 1) / workers;
        Phaser all = new Phaser(workers);
        Thread[] threads = new Thread[workers];
        for (int number = 0; number < workers; number++) {
            int from = Math.min(number * size, pieces.length);
            int to = Math.min(from + size, pieces.length);
            threads[number] = new Thread(() -> work(all, pieces, tables, from, to, steps));
            threads[number].start();
        }
        for (Thread thread : threads) {
            thread.join();
        }
    }

    public static void main(String[] words) throws InterruptedException {
        int[] numbers = Arrays.stream(words).mapToInt(Integer::parseInt).toArray();
        int workers = numbers[0], cells = numbers[1], number = numbers[2], steps = numbers[3];
        int[] plain = firstRow(cells);
        for (int step = 0; step < steps; step++) {
            step(0, plain, 0);
        }
        long shortest = Long.MAX_VALUE;
        boolean same = true;
        for (int round = 0; round < numbers[4]; round++) {
            int[] first = firstRow(cells);
            int size = cells / number;
            int[][] pieces = new int[number][];
            Arrays.setAll(pieces, piece -> Arrays.copyOfRange(first, piece * size, (piece + 1) * size));
            long begun = System.nanoTime();
            go(pieces, steps, workers);
            shortest = Math.min(shortest, System.nanoTime() - begun);
            same &= Arrays.equals(plain, Arrays.stream(pieces).flatMapToInt(Arrays::stream).toArray());
        }
        System.out.printf("%d cells in %d pieces, %d steps: sum %d, each cell %s by the plain function%n", cells, number,
            steps, Arrays.stream(plain).asLongStream().sum(), same ? "as" : "NOT as");
        System.err.printf("%d workers: %d us%n", workers, shortest / 1_000);
        System.exit(same ? 0 : 1);
    }
}
