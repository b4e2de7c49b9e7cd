import java.util.concurrent.Phaser;
import java.util.concurrent.atomic.AtomicInteger;

/** A phaser with a fault, which -Dfault names. The test puts the drop-in on top of it. */
class FaultyPhaser extends Phaser {
    private static final String FAULT = System.getProperty("fault");
    private final AtomicInteger turns = new AtomicInteger();

    FaultyPhaser(int parties) {
        super(parties);
    }

    @Override
    public int arriveAndAwaitAdvance() {
        int turn = turns.incrementAndGet();
        if (FAULT.equals("early") && turn % 6 == 1) { // it doesn't wait
            return super.arrive() + 1;
        }
        if (FAULT.equals("twice") && turn == 9 && getUnarrivedParties() > 1) { // it counts for two
            super.arrive();
        }
        if (FAULT.equals("impatient")) { // it waits a little alone
            int phase = super.arrive();
            long end = System.nanoTime() + 1_000_000;
            while (getPhase() == phase && System.nanoTime() < end) {
                Thread.onSpinWait();
            }
            return phase + 1;
        }
        return super.arriveAndAwaitAdvance();
    }
}
