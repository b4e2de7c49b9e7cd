import java.util.Arrays;
import java.util.concurrent.Phaser;

/**
 * Threads that meet at phasers of Java: java Threads.java KIND WIDTH LENGTH [CLASS]
 *
 * <p>turns: WIDTH threads meet at one phaser, LENGTH times; its class is CLASS, where that is given. ring: each has a
 * phaser of its own, signals there, and waits for its left neighbour's. stencil: WIDTH cells go LENGTH steps, each with a
 * phaser of its own, where its neighbours wait. pipeline: LENGTH items go through WIDTH stages, with a phaser behind the
 * source and each stage. Printed are nanoseconds on the clock for one round, step or item of one thread. The best of
 * several runs counts, after some that warm up; what a kernel came to is laid beside the same computed by one thread.
 */
class Threads {
    static final int WARM = 10;
    static final int RUNS = 10;
    static String phaserClass = "java.util.concurrent.Phaser";

    /** What the thread of this number does. */
    interface Work {
        void go(int thread);
    }

    static Phaser[] phasers(int number) {
        Phaser[] all = new Phaser[number];
        Arrays.setAll(all, place -> new Phaser(1));
        return all;
    }

    /** Nanoseconds from when all threads have started until the last has done its work. */
    static long nanoseconds(int threads, Work work) throws InterruptedException {
        Phaser gate = new Phaser(threads + 1);
        Thread[] all = new Thread[threads];
        for (int number = 0; number < threads; number++) {
            int thread = number;
            all[thread] = new Thread(() -> {
                gate.arriveAndAwaitAdvance();
                gate.arriveAndAwaitAdvance();
                work.go(thread);
                gate.arriveAndAwaitAdvance();
            });
            all[thread].start();
        }
        gate.arriveAndAwaitAdvance();
        long begun = System.nanoTime();
        gate.arriveAndAwaitAdvance();
        gate.arriveAndAwaitAdvance();
        long took = System.nanoTime() - begun;
        for (Thread thread : all) {
            thread.join();
        }
        return took;
    }

    static Phaser phaser(int parties) {
        try {
            return (Phaser) Class.forName(phaserClass).getConstructor(int.class).newInstance(parties);
        } catch (ReflectiveOperationException fault) {
            throw new IllegalArgumentException("CLASS is no phaser's that is made with parties", fault);
        }
    }

    static long turns(int threads, int rounds) throws InterruptedException {
        Phaser all = phaser(threads);
        return nanoseconds(threads, thread -> {
            for (int round = 0; round < rounds; round++) {
                all.arriveAndAwaitAdvance();
            }
        });
    }

    static long ring(int threads, int rounds) throws InterruptedException {
        Phaser[] own = phasers(threads);
        return nanoseconds(threads, thread -> {
            for (int round = 0; round < rounds; round++) {
                own[thread].arrive();
                own[(thread + threads - 1) % threads].awaitAdvance(round);
            }
        });
    }

    static int at(int[] row, int cell) {
        return cell < 0 || cell >= row.length ? 0 : row[cell];
    }

    static int weighed(int[] row, int cell) {
        return (at(row, cell - 1) + 2 * row[cell] + at(row, cell + 1)) / 4;
    }

    /** One cell: it signals, waits for its neighbours, and takes its next value. */
    static void cell(Phaser[] own, int[][] rows, int cell) {
        for (int step = 0; step + 1 < rows.length; step++) {
            own[cell].arrive();
            if (cell > 0) {
                own[cell - 1].awaitAdvance(step);
            }
            if (cell + 1 < own.length) {
                own[cell + 1].awaitAdvance(step);
            }
            rows[step + 1][cell] = weighed(rows[step], cell);
        }
    }

    static long stencil(int cells, int steps) throws InterruptedException {
        int[][] rows = new int[steps + 1][cells];
        Arrays.fill(rows[0], 1_000_000);
        Phaser[] own = phasers(cells);
        long took = nanoseconds(cells, cell -> cell(own, rows, cell));
        int[] row = rows[0];
        for (int step = 0; step < steps; step++) {
            int[] before = row;
            row = new int[cells];
            Arrays.setAll(row, cell -> weighed(before, cell));
        }
        if (!Arrays.equals(row, rows[steps])) {
            throw new IllegalStateException("the threads came to another row");
        }
        return took;
    }

    /** The source, a stage, or the sink, which adds nothing: item after item comes, and goes on. */
    static void stage(Phaser[] behind, int[][] items, int stage) {
        for (int item = 0; item < items[0].length; item++) {
            if (stage > 0) {
                behind[stage - 1].awaitAdvance(item);
            }
            int before = stage == 0 ? item + 1 : items[stage - 1][item];
            items[stage][item] = before + (stage + 1 < items.length ? stage : 0);
            behind[stage].arrive();
        }
    }

    static long pipeline(int stages, int number) throws InterruptedException {
        int[][] items = new int[stages + 2][number];
        Phaser[] behind = phasers(stages + 2);
        long took = nanoseconds(stages + 2, stage -> stage(behind, items, stage));
        for (int item = 0; item < number; item++) {
            if (items[stages + 1][item] != item + 1 + stages * (stages + 1) / 2) {
                throw new IllegalStateException("the threads came to another item");
            }
        }
        return took;
    }

    static long run(String kind, int width, int length) throws InterruptedException {
        switch (kind) {
            case "turns":
                return turns(width, length);
            case "ring":
                return ring(width, length);
            case "stencil":
                return stencil(width, length);
            case "pipeline":
                return pipeline(width, length);
            default:
                throw new IllegalArgumentException("KIND is turns, ring, stencil or pipeline");
        }
    }

    public static void main(String[] words) throws InterruptedException {
        int width = Integer.parseInt(words[1]);
        int length = Integer.parseInt(words[2]);
        phaserClass = words.length > 3 ? words[3] : phaserClass;
        long least = Long.MAX_VALUE;
        for (int run = 0; run < WARM + RUNS; run++) {
            long took = run(words[0], width, length);
            least = run < WARM ? least : Math.min(least, took);
        }
        System.out.printf("%.1f%n", (double) least / ((long) width * length));
    }
}
