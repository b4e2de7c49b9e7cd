import java.util.ArrayList;
import java.util.List;
import java.util.concurrent.ExecutorService;
import java.util.concurrent.Executors;
import java.util.concurrent.Phaser;
import java.util.concurrent.ThreadLocalRandom;
import java.util.concurrent.TimeUnit;
import java.util.concurrent.TimeoutException;
import java.util.concurrent.atomic.AtomicInteger;

/**
 * Small programs on a phaser, one for each kind of use: java Kinds KIND
 *
 * <p>With -Dplain they use the phaser of Java itself. What is printed is the same with it and with the drop-in.
 */
class Kinds {
    static final boolean PLAIN = System.getProperty("plain") != null;
    static final List<Thread> started = new ArrayList<>();

    static Phaser phaser(int parties) {
        return PLAIN ? new Phaser(parties) : new TracedPhaser(parties);
    }

    interface Work {
        void go() throws Exception;
    }

    static Thread start(Work work) {
        Thread thread = new Thread(() -> {
            try {
                work.go();
            } catch (Exception fault) {
                System.out.println("a thread threw " + fault.getClass().getSimpleName());
            }
        });
        synchronized (started) {
            started.add(thread);
        }
        thread.start();
        return thread;
    }

    static void join() throws InterruptedException {
        for (Thread thread : started) {
            thread.join();
        }
        started.clear();
    }

    static void pause(int most) throws InterruptedException {
        Thread.sleep(ThreadLocalRandom.current().nextInt(most + 1));
    }

    static void turns(Phaser phaser, int turns) {
        for (int turn = 0; turn < turns; turn++) {
            phaser.arriveAndAwaitAdvance();
        }
    }

    /** Threads that never end, as daemons. */
    static void daemons() throws Exception {
        Phaser phaser = phaser(3);
        for (int number = 0; number < 3; number++) {
            Thread thread = new Thread(() -> turns(phaser, Integer.MAX_VALUE));
            thread.setDaemon(true);
            thread.start();
        }
        pause(30);
    }

    /** A pool whose threads never end, and System.exit. */
    static void exit() throws Exception {
        Phaser phaser = phaser(4);
        ExecutorService pool = Executors.newFixedThreadPool(4);
        for (int number = 0; number < 4; number++) {
            pool.submit(() -> turns(phaser, Integer.MAX_VALUE));
        }
        pause(30);
        System.exit(0);
    }

    /** As before, with parties that come and go, and one who waits and is no party. */
    static void crowd() throws Exception {
        Phaser phaser = phaser(1);
        for (int number = 0; number < 3; number++) {
            Thread thread = new Thread(() -> {
                while (true) {
                    phaser.register();
                    turns(phaser, ThreadLocalRandom.current().nextInt(3));
                    phaser.arriveAndDeregister();
                }
            });
            thread.setDaemon(true);
            thread.start();
        }
        Thread watcher = new Thread(() -> {
            while (true) {
                phaser.awaitAdvance(phaser.getPhase());
            }
        });
        watcher.setDaemon(true);
        watcher.start();
        for (int turn = 0; turn < 300; turn++) {
            phaser.arriveAndAwaitAdvance();
        }
    }

    static void shortThreads() throws Exception {
        Phaser phaser = phaser(3);
        for (int round = 0; round < 5; round++) {
            for (int number = 0; number < 3; number++) {
                start(() -> turns(phaser, 2));
            }
            join();
        }
        System.out.println(phaser.getPhase());
    }

    /** A phaser of three whose phases are counted, and which is terminated by its own action. */
    static void action() throws Exception {
        int[] actions = {0};
        Phaser phaser = PLAIN ? new Phaser(3) {
            @Override
            protected boolean onAdvance(int phase, int parties) {
                return ++actions[0] == 4;
            }
        } : new TracedPhaser(3) {
            @Override
            protected boolean onAdvance(int phase, int parties) {
                return ++actions[0] == 4;
            }
        };
        for (int number = 0; number < 3; number++) {
            start(() -> {
                while (!phaser.isTerminated()) {
                    phaser.arriveAndAwaitAdvance();
                }
            });
        }
        join();
        System.out.println(actions[0] + " " + phaser.isTerminated() + " " + (phaser.arrive() < 0) + " "
            + (phaser.register() < 0) + " " + (phaser.arriveAndDeregister() < 0) + " " + (phaser.awaitAdvance(0) < 0));
    }

    static void watcher() throws Exception {
        Phaser phaser = phaser(2);
        start(() -> turns(phaser, 3));
        start(() -> turns(phaser, 3));
        System.out.println((phaser.awaitAdvance(0) > 0) + " " + (phaser.awaitAdvance(1) > 1) + " " + phaser.awaitAdvance(2));
        join();
        System.out.println(phaser.awaitAdvance(7) + " " + phaser.awaitAdvance(-1));
    }

    /** One arrives and goes on, again and again; one arrives, and waits later; one arrives for a party that isn't its own. */
    static void split() throws Exception {
        Phaser phaser = phaser(4);
        start(() -> {
            for (int turn = 0; turn < 5; turn++) {
                phaser.awaitAdvance(phaser.arrive());
            }
        });
        start(() -> turns(phaser, 5));
        for (int turn = 0; turn < 5; turn++) {
            int phase = phaser.arrive();
            System.out.println(phase == phaser.arrive());
            while (phaser.getPhase() == phase) {
                Thread.onSpinWait();
            }
        }
        join();
        System.out.println(phaser.getPhase());
    }

    static void register() throws Exception {
        Phaser phaser = phaser(1);
        for (int number = 1; number <= 4; number++) {
            int turns = number;
            phaser.register();
            start(() -> {
                turns(phaser, turns);
                phaser.arriveAndDeregister();
            });
            phaser.arriveAndAwaitAdvance();
        }
        phaser.bulkRegister(2);
        for (int number = 0; number < 2; number++) {
            start(() -> {
                turns(phaser, 1);
                phaser.arriveAndDeregister();
            });
        }
        phaser.arriveAndDeregister();
        join();
        System.out.println(phaser.getRegisteredParties());
    }

    /** One who is no party registers others meanwhile. */
    static void registerFromOutside() throws Exception {
        Phaser phaser = phaser(2);
        start(() -> turns(phaser, 100));
        start(() -> turns(phaser, 100));
        for (int number = 0; number < 20; number++) {
            phaser.register();
            phaser.arriveAndDeregister();
        }
        join();
        System.out.println(phaser.getRegisteredParties());
    }

    static void force() throws Exception {
        Phaser phaser = phaser(3);
        start(() -> System.out.println(phaser.arriveAndAwaitAdvance() < 0));
        start(() -> System.out.println(phaser.arriveAndAwaitAdvance() < 0));
        while (phaser.getArrivedParties() < 2) {
            Thread.onSpinWait();
        }
        phaser.forceTermination();
        join();
        System.out.println((phaser.arriveAndAwaitAdvance() < 0) + " " + (phaser.bulkRegister(2) < 0));
    }

    static void interrupts() throws Exception {
        Phaser phaser = phaser(3);
        Thread waits = start(() -> {
            turns(phaser, 1);
            System.out.println(Thread.interrupted());
        });
        waits.interrupt();
        int phase = phaser.arrive();
        try {
            phaser.awaitAdvanceInterruptibly(phase, 5, TimeUnit.MILLISECONDS);
        } catch (TimeoutException fault) {
            System.out.println("timed out");
        }
        Thread.currentThread().interrupt();
        try {
            phaser.awaitAdvanceInterruptibly(phase);
        } catch (InterruptedException fault) {
            System.out.println("interrupted");
        }
        phaser.arrive();
        int next = phaser.awaitAdvanceInterruptibly(phase);
        join();
        System.out.println(next);
    }

    /** One arrival too many throws what it throws, and all goes on. */
    static void tooMany() throws Exception {
        Phaser phaser = phaser(0);
        try {
            phaser.arriveAndAwaitAdvance();
        } catch (IllegalStateException fault) {
            System.out.println("no party");
        }
        try {
            phaser.bulkRegister(-1);
        } catch (IllegalArgumentException fault) {
            System.out.println("no number");
        }
        phaser.bulkRegister(2);
        start(() -> turns(phaser, 3));
        start(() -> turns(phaser, 3));
        join();
        System.out.println(phaser.getPhase());
    }

    static void many() throws Exception {
        for (int number = 0; number < 20_000; number++) {
            phaser(1).arriveAndAwaitAdvance();
        }
    }

    static void longRun() throws Exception {
        Phaser phaser = phaser(2);
        start(() -> turns(phaser, 100_000));
        start(() -> turns(phaser, 100_000));
        join();
        System.out.println(phaser.getPhase());
    }

    /** The third never comes. */
    static void hang() throws Exception {
        Phaser phaser = phaser(3);
        start(() -> turns(phaser, 3)).setName("first");
        start(() -> turns(phaser, 3)).setName("second");
        start(() -> {
            Thread.currentThread().setName("third");
            turns(phaser, 2);
            Thread.sleep(1_000_000);
        });
        join();
    }

    /** Three turns. Who comes while the phaser goes on is one too many, and comes again. */
    static void turnsAmongMore(Phaser phaser) throws InterruptedException {
        for (int turn = 0; turn < 3; turn++) {
            boolean isOver = false;
            while (!isOver) {
                try {
                    phaser.arriveAndAwaitAdvance();
                    isOver = true;
                } catch (IllegalStateException fault) {
                    Thread.sleep(1);
                }
            }
        }
    }

    /** Six threads where three are meant: each phase has three arrivals, but not of the same three. */
    static void twoPools() throws Exception {
        Phaser phaser = phaser(3);
        AtomicInteger done = new AtomicInteger();
        for (int number = 0; number < 6; number++) {
            start(() -> {
                turnsAmongMore(phaser);
                done.incrementAndGet();
                Thread.sleep(1_000_000);
            });
        }
        // Until each is done, or waits where too few are left: then four at least have taken a turn, which can't be told,
        // and nobody is in the middle of a call, before which the trace could end.
        int ended;
        int waiting;
        do {
            Thread.sleep(10);
            ended = done.get();
            waiting = phaser.getArrivedParties();
        } while (waiting == 3 || ended + waiting < 6);
        System.exit(0);
    }

    static void crowded() throws Exception {
        Phaser phaser = phaser(300);
        for (int number = 0; number < 300; number++) {
            start(() -> turns(phaser, 2));
        }
        join();
        System.out.println(phaser.getPhase());
    }

    static void tier() throws Exception {
        Phaser phaser = phaser(1);
        Phaser below = new Phaser(phaser, 1);
        below.arrive();
        phaser.arriveAndAwaitAdvance();
        System.out.println(phaser.getPhase() + " " + below.getPhase());
    }

    static void halt() throws Exception {
        turns(phaser(1), 2);
        Runtime.getRuntime().halt(0);
    }

    /** Four threads, for barriers with a fault. Where one hangs the program ends all the same. */
    static void faulty() throws Exception {
        Phaser phaser = phaser(4);
        for (int number = 0; number < 4; number++) {
            start(() -> {
                for (int turn = 0; turn < 10; turn++) {
                    pause(2);
                    phaser.arriveAndAwaitAdvance();
                }
            }).setName("worker " + number);
        }
        long end = System.nanoTime() + 500_000_000L;
        for (Thread thread : started) {
            thread.join(Math.max(1, (end - System.nanoTime()) / 1_000_000));
        }
        System.exit(0);
    }

    public static void main(String[] words) throws Exception {
        Kinds.class.getDeclaredMethod(words[0]).invoke(null);
    }
}
