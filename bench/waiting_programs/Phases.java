import java.util.Arrays;
import java.util.concurrent.CyclicBarrier;
import java.util.concurrent.Phaser;
import java.util.concurrent.atomic.AtomicLongArray;

/**
 * Threads of Java that go through the phases of one Phaser and do nothing else: java Phases THREADS PHASES BATCHES
 *
 * <p>A batch is PHASES phases; one warms up, and then BATCHES count. Thread 0 takes the time. Printed are the best and
 * the median batch, in microseconds on the clock for a phase. Status 1: a phase didn't come in order; 2: the words are
 * wrong.
 */
class Phases {
    static final int LOOK_EVERY = 16;

    /** From one thread's count to the next: each has a line of its own, and costs nothing while nobody looks. */
    static final int APART = 16;

    final int threads;
    final int phases;
    final double[] took;
    final Phaser all;

    /** Between batches, outside what is timed. */
    final CyclicBarrier gate;

    /** How many phases each thread has signalled. */
    final AtomicLongArray signalled;

    Phases(int threads, int phases, int batches) {
        this.threads = threads;
        this.phases = phases;
        took = new double[batches + 1];
        all = new Phaser(threads);
        gate = new CyclicBarrier(threads);
        signalled = new AtomicLongArray((threads + 1) * APART);
    }

    static void stop(int status, String why) {
        System.err.println("Phases: " + why);
        Runtime.getRuntime().halt(status);
    }

    /** After the phase the neighbour has signalled it, and at most the next. */
    void look(int thread, long phase) {
        long count = signalled.getOpaque(((thread + 1) % threads + 1) * APART);
        if (count != phase + 1 && count != phase + 2) {
            stop(1, "a thread went on before another had come");
        }
    }

    void endPhase(int thread, long phase, boolean isToLook) {
        signalled.setOpaque((thread + 1) * APART, phase + 1);
        if (all.arriveAndAwaitAdvance() != (int) (phase + 1 & Integer.MAX_VALUE)) {
            stop(1, "a phase was answered as another, or not at all");
        }
        if (isToLook) {
            look(thread, phase);
        }
    }

    /** What a batch took. Where that counts it looks seldom, since that takes a line from another processor. */
    double microseconds(int thread, long first, boolean isToLook) {
        long begun = System.nanoTime();
        for (long phase = first; phase < first + phases; phase++) {
            endPhase(thread, phase, isToLook || phase % LOOK_EVERY == 0);
        }
        return (System.nanoTime() - begun) / 1e3;
    }

    /** What each thread does. */
    void goThrough(int thread) {
        try {
            for (int batch = 0; batch < took.length; batch++) {
                gate.await();
                double taken = microseconds(thread, (long) batch * phases, batch == 0);
                if (thread == 0) {
                    took[batch] = taken;
                }
            }
        } catch (Exception fault) {
            stop(1, fault.toString());
        }
    }

    void goThroughByThreads() throws InterruptedException {
        Thread[] started = new Thread[threads];
        for (int number = 0; number < threads; number++) {
            int thread = number;
            started[thread] = new Thread(() -> goThrough(thread));
            started[thread].start();
        }
        for (Thread thread : started) {
            thread.join();
        }
    }

    public static void main(String[] words) throws InterruptedException {
        if (words.length != 3 || !Arrays.stream(words).allMatch(word -> word.matches("[1-9]\\d{0,8}"))) {
            stop(2, "usage: java Phases THREADS PHASES BATCHES");
        }
        int[] numbers = Arrays.stream(words).mapToInt(Integer::parseInt).toArray();
        Phases run = new Phases(numbers[0], numbers[1], numbers[2]);
        run.goThroughByThreads();
        double[] counting = Arrays.copyOfRange(run.took, 1, run.took.length);
        Arrays.sort(counting);
        System.out.println(counting[0] / run.phases + " " + counting[counting.length / 2] / run.phases);
    }
}
