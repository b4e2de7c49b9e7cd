import java.lang.invoke.MethodHandle;
import java.lang.invoke.MethodHandles;
import java.lang.invoke.MethodType;
import java.util.concurrent.CountDownLatch;
import java.util.concurrent.Phaser;

/**
 * Three threads that take three turns at a phaser: java ThreeThreads [--early-pass]
 *
 * <p>With --early-pass the third thread arrives once too often, and the trace doesn't see it: so the others pass before
 * its first turn. At their end they arrive once more too, so that its last turn ends.
 */
class ThreeThreads {
    static final int THREADS = 3;
    static final int TURNS = 3;
    static final Phaser phaser = new TracedPhaser(THREADS);
    static final CountDownLatch othersPassed = new CountDownLatch(THREADS - 1);

    static void turns() {
        for (int turn = 0; turn < TURNS; turn++) {
            phaser.arriveAndAwaitAdvance();
            othersPassed.countDown();
        }
    }

    /** A turn that goes past the drop-in, to the phaser itself. */
    static void unseenTurn() throws Throwable {
        MethodHandle turn = MethodHandles.privateLookupIn(TracedPhaser.class, MethodHandles.lookup()).findSpecial(
            Phaser.class, "arriveAndAwaitAdvance", MethodType.methodType(int.class), TracedPhaser.class);
        turn.invoke((TracedPhaser) phaser);
    }

    static void work(boolean isEarly, boolean isThird) {
        try {
            if (isEarly && isThird) {
                unseenTurn();
                othersPassed.await();
            }
            turns();
            if (isEarly && !isThird) {
                unseenTurn();
            }
        } catch (Throwable fault) {
            throw new IllegalStateException(fault);
        }
    }

    public static void main(String[] words) {
        boolean isEarly = words.length > 0 && words[0].equals("--early-pass");
        for (int number = 1; number <= THREADS; number++) {
            boolean isThird = number == THREADS;
            new Thread(() -> work(isEarly, isThird)).start();
        }
    }
}
