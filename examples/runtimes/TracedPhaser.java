import java.io.*;
import java.lang.ref.Cleaner;
import java.nio.charset.StandardCharsets;
import java.nio.file.*;
import java.util.*;
import java.util.concurrent.*;
import java.util.concurrent.atomic.*;

/**
 * A phaser of {@code java.util.concurrent} that leaves a trace of its run: write {@code new TracedPhaser(3)} for
 * {@code new Phaser(3)}. The trace is written when the program ends, into the file that the environment variable
 * {@code PHASER_TRACE} names, else into trace.json; that of the program's second phaser has the ending .2, and so on.
 *
 * <p>Each thread keeps a list of its own: a ticket before each call, a ticket after it, and what the phaser answered. The
 * trace is made of these lists when it is written. An arrival stands where its call was begun, and a pass where its wait
 * was over: so an arrival never stands after a pass that it let go. What a trace can't tell is said on standard error,
 * and the trace then ends in an event that a replay refuses.
 *
 * <p>If {@code PHASER_TRACE} is fd:N, or names a pipe, or ends in .jsonl, the log is written line by line as it comes, for
 * {@code phaser_run judge}: all phasers in one log, of any length. So a run is judged while it goes on:
 * {@code mkfifo log; phaser_run judge log & PHASER_TRACE=log java Program}. See {@link Lines}.
 */
public class TracedPhaser extends Phaser {
    private static final int MOST_EVENTS = 65_536; // on a phaser of a trace
    private static final int MOST_TICKETS = 4 * MOST_EVENTS;
    private static final int MOST_AT_ONCE = 256; // tasks on the phaser
    private static final int BOUND = 2; // of a phaser in lines: nobody is further ahead, and a judge needs less room
    private static final int MOST_TASKS = 4_096;
    private static final int MOST_PHASERS = 30_000;
    private static final int NEVER = Integer.MAX_VALUE; // a ticket that nobody draws
    private static final long NO_ANSWER = Long.MAX_VALUE; // the call hasn't come back
    private static final long THREW = Long.MIN_VALUE;
    private static final String START = "{\"events\":["; // of the text of a trace
    private static final String NAME = System.getenv().getOrDefault("PHASER_TRACE", "trace.json");
    private static final String AFTER = System.getenv("PHASER_TRACE_AFTER"); // seconds
    private static final List<TracedPhaser> TRACED = new ArrayList<>(); // this and the next: under the lock of the list
    private static int untraced; // how many phasers came after the most
    private static final Lines LINES = Lines.asked(); // null where traces are written whole

    private enum Kind {
        NEXT, ARRIVE, LEAVE, REGISTER, AWAIT, END, CLOSE; // the last is of lines alone

        static final Kind[] ALL = values();
    }

    private final Parties lined; // as the log by lines tells it; null where there is none
    private final int atFirst; // the parties that it was made with
    private final AtomicInteger tickets = new AtomicInteger();
    private final ThreadLocal<Log> own = new ThreadLocal<>();
    private final Queue<Log> logs = new ConcurrentLinkedQueue<>();
    private final List<Log> alive = new ArrayList<>(); // whose thread wasn't seen dead; under its own lock
    private volatile boolean isFull;

    public TracedPhaser() {
        this(0);
    }

    public TracedPhaser(int parties) {
        super(parties);
        atFirst = parties;
        lined = LINES == null ? null : LINES.made(this, parties);
        if (lined != null) {
            return;
        }
        synchronized (TRACED) {
            if (TRACED.isEmpty()) {
                prepare();
            }
            isFull = TRACED.size() == MOST_PHASERS;
            if (isFull) {
                untraced++;
            } else {
                TRACED.add(this);
            }
        }
    }

    @Override
    public int register() {
        return logged(Kind.REGISTER, 1, super::register);
    }

    @Override
    public int bulkRegister(int parties) {
        return logged(Kind.REGISTER, parties, () -> super.bulkRegister(parties));
    }

    @Override
    public int arrive() {
        return logged(Kind.ARRIVE, getPhase(), super::arrive);
    }

    @Override
    public int arriveAndDeregister() {
        return logged(Kind.LEAVE, getPhase(), super::arriveAndDeregister);
    }

    @Override
    public int arriveAndAwaitAdvance() {
        return logged(Kind.NEXT, getPhase(), super::arriveAndAwaitAdvance);
    }

    @Override
    public int awaitAdvance(int phase) {
        return logged(Kind.AWAIT, phase, () -> super.awaitAdvance(phase));
    }

    @Override
    public int awaitAdvanceInterruptibly(int phase) throws InterruptedException {
        return logged(Kind.AWAIT, phase, () -> super.awaitAdvanceInterruptibly(phase));
    }

    @Override
    public int awaitAdvanceInterruptibly(int phase, long timeout, TimeUnit unit)
            throws InterruptedException, TimeoutException {
        Begun begun = begun(Kind.AWAIT, phase);
        long answer = THREW;
        try {
            return (int) (answer = super.awaitAdvanceInterruptibly(phase, timeout, unit));
        } finally {
            begun.over(answer);
        }
    }

    private interface Real<E extends Exception> {
        int call() throws E;
    }

    private <E extends Exception> int logged(Kind kind, int value, Real<E> real) throws E {
        Begun begun = begun(kind, value);
        long answer = THREW;
        try {
            return (int) (answer = real.call());
        } finally {
            begun.over(answer);
        }
    }

    /** A call that was logged when it began, if at all, and is to be when it is over. */
    private interface Begun {
        void over(long answer);
    }

    /** Logs that a call begins. The value is a phase, negative once the phaser is terminated, or parties. */
    private Begun begun(Kind kind, int value) {
        if (isFull || value < 0) {
            return answer -> { };
        }
        if (lined != null) {
            return lined.begun(kind, value);
        }
        Log log = own.get();
        if (log == null) {
            log = new Log();
            own.set(log);
            logs.add(log);
        }
        return log.add(kind, value) ? log : answer -> { };
    }

    /** What a thread did: pairs of a ticket with a kind, and a value. The thread alone adds to it. */
    private final class Log implements Begun {
        final Thread thread = Thread.currentThread();
        final AtomicInteger length = new AtomicInteger();
        volatile int dead = NEVER; // the thread was seen dead before this ticket was drawn
        long[] entries = new long[16];

        Log() {
            synchronized (alive) {
                for (Log other : alive) {
                    other.dead = other.thread.isAlive() ? NEVER : tickets.get();
                }
                alive.removeIf(other -> other.dead != NEVER);
                alive.add(this);
            }
        }

        @Override
        public void over(long answer) {
            add(Kind.END, answer);
        }

        boolean add(Kind kind, long value) {
            int ticket = tickets.getAndIncrement();
            if (ticket >= MOST_TICKETS) {
                isFull = true;
                return false;
            }
            int at = length.get();
            if (at == entries.length) {
                entries = Arrays.copyOf(entries, 2 * at);
            }
            entries[at] = (long) ticket * Kind.ALL.length + kind.ordinal();
            entries[at + 1] = value;
            length.lazySet(at + 2); // who reads this length sees both
            return true;
        }
    }

    private static final class Call {
        final Log log;
        final Kind kind;
        final int value;
        final int begun; // its first ticket
        int over = NEVER; // its last
        long answer = NO_ANSWER;
        int phase = -1; // that it is of; none where it isn't told
        Task task; // as which its thread arrived or waits

        Call(Log log, Kind kind, int value, int begun) {
            this.log = log;
            this.kind = kind;
            this.value = value;
            this.begun = begun;
        }

        boolean waits() {
            return answer == NO_ANSWER && (kind == Kind.NEXT || kind == Kind.AWAIT);
        }

        /** Finds the phase that it is of. The number of a phase is the answer's, with a sign where it is terminated. */
        void settle() {
            int number = (int) answer & Integer.MAX_VALUE;
            boolean isBack = answer != NO_ANSWER && answer != THREW;
            if (kind == Kind.AWAIT) {
                phase = isBack && number > value ? value : -1;
            } else if (kind == Kind.NEXT && answer != THREW) {
                phase = isBack && answer >= 0 ? number - 1 : value;
                over = isBack && number > value ? over : NEVER; // else its wait isn't over, or was given up
            } else if (isBack && answer >= 0) {
                phase = number;
            }
        }
    }

    /** A party, or who waits and is no party. */
    private static final class Task {
        static final int LATE = 5; // the phaser went on without it
        static final int NONE = 6;
        final int number;
        final boolean signals;
        int arrives; // in this phase next
        int passes; // this phase next
        int turn = -1; // the place of its turn under way
        Log owner; // the thread that came as it last
        boolean isLoose; // and arrived without a wait

        Task(int number, boolean signals, int phase) {
            this.number = number;
            this.signals = signals;
            this.arrives = phase;
            this.passes = phase;
        }

        /** How badly an arrival fits: best comes the thread's own party, then nobody's, then a dead thread's. */
        int misfit(Call call) {
            boolean isOwn = owner == call.log || owner == null;
            if (!signals || arrives != call.phase) {
                return signals && isOwn && arrives < call.phase ? LATE : NONE;
            }
            return owner == call.log ? 0 : owner == null ? 1 : owner.dead <= call.begun ? 2 : isLoose ? 3
                : call.kind != Kind.NEXT ? 4 : NONE;
        }
    }

    private final class Trace {
        final List<Call> calls = new ArrayList<>();
        final TreeSet<String> waiting = new TreeSet<>();
        int drawn; // how many tickets were, when the logs were read
        int cut; // the first ticket that isn't told
        boolean isStill; // nothing goes on meanwhile
        String note; // what is to be said
        String doubt; // why the trace is not to be taken for the whole
        List<String> events;
        int onPhaser; // how many of them are the phaser's
        Deque<Task> here; // but task 0
        Map<Log, Task> watchers;
        int tasks;
        int rootPhase; // task 0 is in this one; none where it has left
        boolean isFalse; // the last event is for the replay to refuse

        Trace() {
            collect();
            calls.forEach(Call::settle);
            int before;
            do { // again where a turn that isn't over can't have been of the phase that was read before it
                before = cut;
                tell();
            } while (cut < before);
            long parties = here.stream().filter(task -> task.signals).count();
            int registered = getRegisteredParties();
            isStill &= drawn == tickets.get(); // so nobody has begun to register before they were counted
            if (isStill && hasRoom() && parties != registered) {
                doubt = registered + " parties are registered, and " + parties + " were seen to be";
            }
            if (!isFalse && doubt != null) {
                refuse(doubt);
            } else if (!isFalse) {
                end();
            }
        }

        /** Tickets have no gaps: one that isn't here was drawn by a thread that still runs, and there the trace is cut. */
        void collect() {
            drawn = tickets.get();
            BitSet there = new BitSet();
            for (Log log : logs) {
                Deque<Call> open = new ArrayDeque<>();
                int length = log.length.get();
                for (int at = 0; at < length; at += 2) {
                    long entry = log.entries[at];
                    int ticket = (int) (entry / Kind.ALL.length);
                    Kind kind = Kind.ALL[(int) (entry % Kind.ALL.length)];
                    there.set(ticket);
                    if (kind == Kind.END) {
                        open.peek().over = ticket;
                        open.pop().answer = log.entries[at + 1];
                    } else {
                        open.push(new Call(log, kind, (int) log.entries[at + 1], ticket));
                        calls.add(open.peek());
                    }
                }
            }
            cut = there.nextClearBit(0);
            isStill = cut == drawn && !isTerminated();
            for (Call call : calls) {
                isStill &= call.answer != NO_ANSWER;
                if (call.answer == NO_ANSWER && !call.waits()) { // it may be made already, or not
                    cut = Math.min(cut, call.begun);
                }
            }
            calls.stream().filter(call -> call.waits() && call.begun < cut).forEach(
                call -> waiting.add(call.log.thread.getName()));
            if (cut < there.length() && !isFull) {
                note = "threads still ran: it tells the run up to where each of them was known";
            }
        }

        /** Puts the calls in order. One of a later phase never stands before one of an earlier, where it was over after. */
        void tell() {
            List<Call> told = new ArrayList<>();
            calls.stream().filter(call -> call.phase >= 0 && call.begun < cut).forEach(told::add);
            told.sort(Comparator.comparingInt((Call call) -> call.phase).thenComparingInt(call -> call.begun));
            List<int[]> steps = new ArrayList<>(); // the ticket; 1 for the end of a wait; which call
            Map<Log, Integer> arrived = new HashMap<>();
            int[] latest = {0, 0, 0}; // a phase; the last ticket at which a call of it was begun; and of those before it
            int lastUse = -1; // of task 0
            for (int at = 0; at < told.size(); at++) {
                Call call = told.get(at);
                if (call.phase > latest[0]) {
                    latest = new int[] {call.phase, latest[1], latest[1]};
                }
                int ticket = call.begun;
                if (call.kind != Kind.AWAIT) {
                    latest[1] = Math.max(latest[1], call.begun);
                    ticket = Math.min(call.over, Math.max(call.begun, latest[2]));
                }
                if (call.kind == Kind.NEXT || call.kind == Kind.ARRIVE) {
                    arrived.put(call.log, call.phase);
                } else if (call.kind == Kind.REGISTER || call.kind == Kind.AWAIT
                        && arrived.getOrDefault(call.log, -1) != call.phase) {
                    lastUse = Math.max(lastUse, ticket);
                }
                steps.add(new int[] {ticket, 0, at});
                if (call.over < cut && (call.kind == Kind.NEXT || call.kind == Kind.AWAIT)) {
                    steps.add(new int[] {call.over, 1, at});
                }
            }
            steps.sort(Comparator.comparingInt((int[] step) -> step[0]).thenComparingInt(step -> step[1])
                .thenComparingInt(step -> step[2]));
            begin();
            for (int[] step : steps) {
                if (rootPhase >= 0 && step[0] > lastUse) {
                    leave(0);
                }
                if (isFalse || !hasRoom()) {
                    break;
                }
                Call call = told.get(step[2]);
                if (step[1] == 1) {
                    passUpTo(call.phase, call.task);
                } else if (call.kind == Kind.REGISTER) {
                    close(call.phase - 1, true);
                    spawn(call.value, true);
                } else if (call.kind == Kind.AWAIT) {
                    watch(call);
                } else {
                    arrive(call);
                }
            }
        }

        void begin() {
            events = new ArrayList<>();
            here = new ArrayDeque<>();
            watchers = new HashMap<>();
            onPhaser = tasks = rootPhase = 0;
            isFalse = false;
            doubt = null;
            phaser("'make',0,'SIG_WAIT',[],null");
            spawn(atFirst, true);
        }

        void spawn(int number, boolean signals) {
            String mode = signals ? "'SIG_WAIT'" : "'WAIT'";
            for (int count = 0; count < number && !isFalse && hasRoom(); count++) {
                act(0, "'async'," + ++tasks + ",[[0," + mode + "]]");
                phaser("'reg',0," + tasks + "," + mode);
                isFalse = here.size() + 1 >= MOST_AT_ONCE || tasks >= MOST_TASKS; // the replay has no room for it either
                note = isFalse ? "more parties than 255 at once, or than 4,095 in all" : note;
                events.add("'f',0,'spawned'," + tasks);
                here.add(new Task(tasks, signals, rootPhase));
            }
        }

        void arrive(Call call) {
            Task task = here.stream().min(Comparator.comparingInt(it -> it.misfit(call))).orElse(null);
            if (task != null && task.misfit(call) < Task.NONE) {
                doubt = task.misfit(call) < Task.LATE ? doubt : late(call);
                call.phase = task.arrives;
                passUpTo(call.phase - 1, task); // where it didn't wait, its phase went on before
                call.task = task;
                task.owner = call.log;
                task.isLoose = call.kind != Kind.NEXT;
                task.turn = task.isLoose ? -1 : events.size();
                act(task.number, task.isLoose ? "'signal'" : "'next'");
                phaser("'sig'," + task.number);
                task.arrives++;
                if (call.kind == Kind.LEAVE) {
                    here.remove(task);
                    leave(task.number);
                }
            } else if (call.answer == NO_ANSWER) {
                cut = Math.min(cut, call.begun);
            } else {
                refuse(late(call));
            }
        }

        String late(Call call) {
            return call.log.thread.getName() + " arrived in phase " + call.phase + ", where it had no party";
        }

        void watch(Call call) {
            for (Task task : here) {
                call.task = task.owner == call.log && task.arrives == call.phase + 1 ? task : call.task;
            }
            if (call.task == null && rootPhase >= 0 && rootPhase <= call.phase) {
                if (!watchers.containsKey(call.log)) {
                    spawn(1, false);
                    watchers.put(call.log, here.getLast());
                }
                call.task = watchers.get(call.log);
            }
        }

        void passUpTo(int phase, Task task) {
            while (task != null && here.contains(task) && task.passes <= phase && hasRoom()) {
                close(task.passes, false);
                if (task.turn < 0) {
                    act(task.number, "'wait'");
                }
                phaser("'pass'," + task.number);
                task.passes++;
                task.turn = -1;
            }
        }

        /** Task 0 takes its turns up to this phase, each once all others have arrived; or in any case. */
        void close(int phase, boolean always) {
            while (rootPhase >= 0 && rootPhase <= phase && hasRoom()
                    && (always || here.stream().noneMatch(task -> task.signals && task.arrives <= rootPhase))) {
                act(0, "'next'");
                phaser("'sig',0");
                phaser("'pass',0");
                rootPhase++;
            }
        }

        void leave(int task) {
            act(task, "'end'");
            phaser("'drop'," + task);
            if (task == 0) {
                rootPhase = -1;
            } else {
                events.add("'f',0,'ended'," + task);
            }
        }

        /** All who are there leave. Who still waits only signalled. */
        void end() {
            if (rootPhase >= 0) {
                leave(0);
            }
            for (Task task : here) {
                if (task.turn >= 0) {
                    events.set(task.turn, "'t'," + task.number + ",'begin',['signal']");
                }
                leave(task.number);
            }
            events.add("'f',0,'shut'");
        }

        /** An event that no run makes: of a task that isn't there. */
        void refuse(String why) {
            note = why;
            isFalse = true;
            act(tasks + 1, "'next'");
        }

        boolean hasRoom() { // for what a call does at once, and for the leaving of all
            return onPhaser + here.size() + 8 <= MOST_EVENTS;
        }

        void act(int task, String act) {
            events.add("'t'," + task + ",'begin',[" + act + "]");
        }

        void phaser(String event) {
            events.add("'p',0," + event);
            onPhaser++;
        }

        /** Who waits in which phase, and who is missing there; nothing where that can't be told, or nobody is missing. */
        String hang() {
            int phase = here.stream().filter(task -> task.signals).mapToInt(task -> task.arrives).min().orElse(0);
            TreeSet<String> missing = new TreeSet<>();
            for (Task task : here) {
                if (task.signals && task.arrives == phase) {
                    missing.add(task.owner == null ? "a party that no thread came as" : task.owner.thread.getName());
                }
            }
            missing.removeAll(waiting);
            return waiting.isEmpty() || missing.isEmpty() || isFull ? null : "in phase " + phase + " " + String.join(", ", waiting) + " wait"
                + (waiting.size() == 1 ? "s; " : "; ") + String.join(", ", missing) + " didn't arrive";
        }

        void write(String name) {
            try (PrintWriter out = new PrintWriter(name)) {
                for (int at = 0; at < events.size(); at++) {
                    String line = "[" + (at + 1) + "," + events.get(at).replace('\'', '"') + "]";
                    out.print((at == 0 ? START + "\n" : ",\n") + line);
                }
                out.println("],\"limits\":{\"acts\":65536,\"history\":65536,\"tasks\":4096},\"version\":2}");
            } catch (IOException fault) {
                say(name, "no trace was written: " + fault);
            }
            boolean isWhole = hasRoom() && !isFull;
            String kept = isFalse ? "the trace can't tell this, and a replay refuses it: " : "";
            say(name, isWhole || isFalse ? null : "no more room: the trace ends there, with the leaving of all");
            say(name, note == null ? null : kept + note);
            say(name, hang());
        }
    }

    /**
     * The log line by line. An entry is put into a ring by ticket: an arrival before its call, and what a call answered
     * after it. A thread of its own empties the ring in order, and tells the entries as events. If the ring is full the
     * program waits for the reader; if the reader is gone it goes on without a log.
     */
    private static final class Lines {
        static final int SLOTS = 65_536;
        static final int PIECE = 4_096; // bytes that a pipe takes at once: so a line is never cut
        static final int PATIENCE = 10_000; // milliseconds
        static final Cleaner CLEANER = Cleaner.create();

        final OutputStream out;
        final StringBuilder text = new StringBuilder("{\"version\":2}\n");
        final AtomicReferenceArray<Entry> slots = new AtomicReferenceArray<>(SLOTS);
        final AtomicLong drawn = new AtomicLong();
        final AtomicLong phasers = new AtomicLong();
        final Set<Parties> there = new LinkedHashSet<>(); // the writer's, as the next is
        long written; // lines, which their tickets count
        volatile long told; // how many slots were emptied
        volatile boolean isOn = true;
        volatile boolean isEnding;
        volatile boolean saysWho;

        Lines(OutputStream out) {
            this.out = out;
            Thread writer = new Thread(this::write, "TracedPhaser");
            writer.setDaemon(true);
            writer.start();
        }

        /** The log, if the name asks for one by lines. One that can't be written is off. */
        static Lines asked() {
            boolean isNumber = NAME.matches("fd:[0-9]+");
            if (!isNumber && !NAME.endsWith(".jsonl") && !isPipe()) {
                return null;
            }
            OutputStream out = OutputStream.nullOutputStream();
            IOException failed = null;
            try {
                out = NAME.equals("fd:1") ? new FileOutputStream(FileDescriptor.out)
                    : isNumber ? new FileOutputStream("/dev/fd/" + NAME.substring(3), true) : new FileOutputStream(NAME);
            } catch (IOException fault) {
                failed = fault;
            }
            Lines lines = new Lines(out);
            if (failed != null) {
                lines.isOn = false;
                say(NAME, "the log can't be written: " + failed.getMessage());
            }
            Runtime.getRuntime().addShutdownHook(new Thread(lines::end));
            sayLater(() -> lines.saysWho = true);
            return lines;
        }

        static boolean isPipe() {
            try {
                return ((int) Files.getAttribute(Paths.get(NAME), "unix:mode") & 0170000) == 0010000;
            } catch (IOException | RuntimeException none) {
                return false;
            }
        }

        Parties made(TracedPhaser phaser, int number) {
            Parties parties = new Parties(this);
            parties.draw(new Entry(parties, Kind.REGISTER, number, null));
            CLEANER.register(phaser, () -> parties.draw(new Entry(parties, Kind.CLOSE, 0, null)));
            return parties;
        }

        void draw(Entry entry) {
            if (isOn) {
                long ticket = drawn.getAndIncrement();
                if (ticket - told < SLOTS || hasRoom(ticket)) {
                    slots.set((int) (ticket % SLOTS), entry);
                }
            }
        }

        /** Waits until the ring has room for the ticket. An interrupt is kept for the program. */
        boolean hasRoom(long ticket) {
            boolean isInterrupted = false;
            while (isOn && ticket - told >= SLOTS) {
                isInterrupted |= !sleeps(1);
            }
            if (isInterrupted) {
                Thread.currentThread().interrupt();
            }
            return isOn;
        }

        static boolean sleeps(int milliseconds) {
            try {
                Thread.sleep(milliseconds);
                return true;
            } catch (InterruptedException fault) {
                return false;
            }
        }

        /** What the writer does: it empties the ring each some milliseconds, until the end of the program, or of the log. */
        void write() {
            String why = null;
            long end = Long.MAX_VALUE; // what was drawn when the program ended
            int pause = 1;
            int open = 0; // milliseconds for which a slot that was drawn wasn't filled
            try {
                while (isOn && why == null && told < end) {
                    end = isEnding ? Math.min(end, drawn.get()) : end;
                    boolean asksWho = saysWho;
                    long before = drawn.get();
                    boolean wrote = empty();
                    pause = wrote ? 1 : Math.min(2 * pause, 16);
                    open = wrote || before <= told ? 0 : open + pause;
                    why = open > PATIENCE ? "a thread was stopped while it logged" : null;
                    if (asksWho && Math.min(before, end) <= told) {
                        saysWho = false;
                        there.forEach(Parties::sayWho);
                    }
                    if (told < end) {
                        sleeps(pause);
                    }
                }
                out.close();
            } catch (IOException fault) {
                why = "Broken pipe".equals(fault.getMessage()) ? "its reader is gone" : fault.getMessage();
            } catch (RuntimeException | Error fault) {
                why = fault.toString();
            }
            isOn = false;
            say(NAME, why == null ? null : "the log ends: " + why);
        }

        /** Writes what stands in the ring, up to the first slot that isn't filled. Whether it was anything. */
        boolean empty() throws IOException {
            long first = told;
            long next = first;
            Entry entry;
            while ((entry = slots.get((int) (next % SLOTS))) != null) {
                slots.set((int) (next % SLOTS), null);
                entry.parties.tell(entry);
                next++;
                if (next % 1024 == 0) {
                    told = next;
                }
            }
            flush();
            told = next;
            return next != first;
        }

        void line(long phaser, String event) throws IOException {
            String line = "[" + ++written + ",\"p\"," + phaser + "," + event + "]\n";
            if (text.length() + line.length() > PIECE) {
                flush();
            }
            text.append(line);
        }

        void flush() throws IOException {
            if (text.length() > 0) {
                out.write(text.toString().getBytes(StandardCharsets.US_ASCII));
                text.setLength(0);
            }
        }

        /** Has all written that was drawn, unless the reader takes nothing for a long time. */
        void end() {
            saysWho = true;
            isEnding = true;
            long before = told;
            for (int waits = 0; isOn && waits < PATIENCE; waits++) {
                sleeps(1);
                waits = told == before ? waits : 0;
                before = told;
            }
        }
    }

    private static final class Entry implements Begun {
        final Parties parties;
        final Kind kind;
        final int value; // a phase; of a registration how many parties
        final Entry of; // of an end the arrival
        final Thread thread = Thread.currentThread();
        int phase; // of a registration
        Party party; // as which it arrived

        Entry(Parties parties, Kind kind, int value, Entry of) {
            this.parties = parties;
            this.kind = kind;
            this.value = value;
            this.of = of;
        }

        /** Of a registration or a wait alone something is told when it is over: that it is. */
        @Override
        public void over(long answer) {
            int number = (int) answer & Integer.MAX_VALUE; // that of a phase; without the sign that it is terminated
            if (answer == THREW) {
                return;
            }
            if (kind == Kind.REGISTER && answer >= 0) {
                phase = number;
                parties.lines.draw(this);
            } else if (kind == Kind.NEXT && Party.apart(number, value) > 0) {
                parties.lines.draw(new Entry(parties, Kind.END, value, this));
            } else if (kind == Kind.AWAIT && Party.apart(number, value) > 0) {
                parties.lines.draw(this);
            }
        }
    }

    /** A task of a log by lines. Numbers of phases begin again after the greatest. */
    private static final class Party {
        final long number;
        int arrives; // in this phase next
        int passes; // this phase next
        boolean isAhead; // the line of its next arrival is there already
        boolean waits;
        boolean isHere = true;
        Thread owner; // that came as it last

        Party(long number, int phase) {
            this.number = number;
            this.arrives = phase;
            this.passes = phase;
        }

        /** It signals this phase next. */
        int signals() {
            return isAhead ? after(arrives) : arrives;
        }

        static int apart(int later, int earlier) {
            return later - earlier << 1 >> 1;
        }

        static int after(int phase) {
            return phase + 1 & Integer.MAX_VALUE;
        }
    }

    /** The parties of a phaser as its lines tell them. The writer alone uses them. */
    private static final class Parties {
        final Lines lines;
        final long phaser;
        final List<Party> here = new ArrayList<>();
        long tasks;
        boolean isTold = true;

        Parties(Lines lines) {
            this.lines = lines;
            this.phaser = lines.phasers.getAndIncrement();
        }

        void draw(Entry entry) {
            lines.draw(entry);
        }

        Begun begun(Kind kind, int value) {
            Entry entry = new Entry(this, kind, value, null);
            if (kind == Kind.NEXT || kind == Kind.ARRIVE || kind == Kind.LEAVE) {
                lines.draw(entry);
            }
            return entry;
        }

        void tell(Entry entry) throws IOException {
            if (entry.kind == Kind.CLOSE) {
                close();
            } else if (!isTold) {
                return;
            } else if (entry.kind == Kind.REGISTER) {
                lines.there.add(this);
                for (int count = 0; count < entry.value && isTold; count++) {
                    register(entry.phase);
                }
            } else if (entry.kind == Kind.AWAIT) {
                watch(entry.value, entry.thread);
            } else if (entry.kind == Kind.END) {
                passUpTo(entry.value, entry.of.party);
            } else {
                arrive(entry);
            }
        }

        void line(String what, Party party, String more) throws IOException {
            lines.line(phaser, "\"" + what + "\"," + party.number + more);
        }

        /** By the party that has signalled least. If all have signalled this phase, so has the child: it gets no line of its own. */
        void register(int phase) throws IOException {
            if (here.size() == MOST_AT_ONCE) {
                giveUp("more than 256 parties at once");
                return;
            }
            Party child = new Party(++tasks, phase);
            if (here.isEmpty()) {
                line("make", child, ",\"SIG_WAIT\",[]," + BOUND);
            } else {
                Party parent = Collections.min(here, Comparator.comparingInt(party -> Party.apart(party.signals(), phase)));
                passUpTo(phase - 1, parent);
                line("reg", parent, "," + child.number + ",\"SIG_WAIT\"");
                child.isAhead = parent.signals() != phase;
            }
            here.add(child);
        }

        /** The thread's own party arrives, else one that no thread came as, else another's: each that still has to. */
        void arrive(Entry entry) throws IOException {
            Party chosen = null;
            for (Party party : here) {
                if (party.arrives == entry.value && (chosen == null || misfit(party, entry) < misfit(chosen, entry))) {
                    chosen = party;
                }
            }
            if (here.isEmpty()) {
                return; // the call throws
            }
            if (chosen == null) {
                watch(entry.value - 1, null); // the phase before is over: who hasn't arrived there is named by this
                giveUp(entry.thread.getName() + " arrived in phase " + entry.value + ", where it had no party");
                return;
            }
            passUpTo(entry.value - 1, chosen);
            if (!chosen.isAhead) {
                line("sig", chosen, "");
            }
            chosen.isAhead = false;
            chosen.arrives = Party.after(entry.value);
            chosen.owner = entry.thread;
            chosen.waits = entry.kind == Kind.NEXT;
            entry.party = chosen;
            if (entry.kind == Kind.LEAVE) {
                drop(chosen);
                here.remove(chosen);
            }
        }

        static int misfit(Party party, Entry entry) {
            return party.owner == entry.thread ? 0 : party.owner == null ? 1 : 2;
        }

        void passUpTo(int phase, Party party) throws IOException {
            while (party != null && party.isHere && Party.apart(phase, party.passes) >= 0) {
                line("pass", party, "");
                party.passes = Party.after(party.passes);
                party.waits = false;
            }
        }

        /** A phase was over. If it wasn't the thread's own party that waited, a task that only waits comes, passes and goes. */
        void watch(int phase, Thread thread) throws IOException {
            for (Party party : here) {
                if (party.owner == thread && party.arrives == Party.after(phase)) {
                    passUpTo(phase, party);
                    return;
                }
            }
            Party last = here.stream().min(Comparator.comparingInt(party -> Party.apart(party.passes, phase))).orElse(null);
            if (last != null && Party.apart(phase, last.passes) >= 0 && here.size() < MOST_AT_ONCE) {
                Party watcher = new Party(++tasks, last.passes);
                line("reg", last, "," + watcher.number + ",\"WAIT\"");
                passUpTo(phase, watcher);
                drop(watcher);
            }
        }

        void drop(Party party) throws IOException {
            line("drop", party, "");
            party.isHere = false;
        }

        /** The phaser is gone. */
        void close() throws IOException {
            for (Party party : here) {
                drop(party);
            }
            here.clear();
            lines.there.remove(this);
        }

        void giveUp(String why) {
            isTold = false;
            here.clear();
            say(NAME, "the log of phaser " + phaser + " ends, since it can't tell this: " + why);
        }

        /** Says who waits in which phase, and who is missing there; nothing if nobody is. */
        void sayWho() {
            TreeSet<String> waiting = new TreeSet<>();
            TreeSet<String> missing = new TreeSet<>();
            Party last = here.isEmpty() ? null : Collections.min(here, (one, other) -> Party.apart(one.arrives, other.arrives));
            for (Party party : here) {
                String name = party.owner == null ? "a party that no thread came as" : party.owner.getName();
                if (party.arrives == last.arrives) {
                    missing.add(name);
                } else if (party.waits) {
                    waiting.add(name);
                }
            }
            if (!waiting.isEmpty()) {
                say(NAME, "phaser " + phaser + ": in phase " + last.arrives + " " + String.join(", ", waiting) + " wait"
                    + (waiting.size() == 1 ? "s; " : "; ") + String.join(", ", missing) + " didn't arrive");
            }
        }
    }

    private static void say(String name, String what) {
        if (what != null) {
            System.err.println("TracedPhaser: " + name + ": " + what);
        }
    }

    /** Takes yesterday's traces away, and has today's written: once for the whole program. */
    private static void prepare() {
        try {
            Path named = Paths.get(NAME).toAbsolutePath();
            if (!named.startsWith("/dev") && !named.startsWith("/proc")) {
                String begin = named.getFileName() + ".";
                try (DirectoryStream<Path> files = Files.newDirectoryStream(named.getParent())) {
                    for (Path file : files) {
                        String name = file.getFileName().toString();
                        boolean isNext = name.startsWith(begin) && name.substring(begin.length()).matches("[1-9][0-9]*");
                        if (Files.isRegularFile(file) && (file.equals(named) || isNext && isTrace(file))) {
                            Files.delete(file);
                        }
                    }
                }
            }
        } catch (IOException | RuntimeException fault) {
            say(NAME, "an old trace may be left: " + fault);
        }
        try {
            Runtime.getRuntime().addShutdownHook(new Thread(TracedPhaser::writeAll));
        } catch (IllegalStateException fault) {
            say(NAME, "it isn't written: " + fault);
        }
        sayLater(TracedPhaser::writeAll);
    }

    /** Has this done after the seconds of PHASER_TRACE_AFTER. */
    private static void sayLater(Runnable say) {
        try {
            if (AFTER != null) {
                long milliseconds = (long) (1000 * Double.parseDouble(AFTER));
                Thread watch = new Thread(() -> {
                    try {
                        Thread.sleep(milliseconds);
                        say.run();
                    } catch (InterruptedException fault) {
                        say(NAME, "nothing is written after " + AFTER + " seconds: " + fault);
                    }
                });
                watch.setDaemon(true);
                watch.start();
            }
        } catch (NumberFormatException fault) {
            say(NAME, "nothing is written after the seconds of PHASER_TRACE_AFTER: " + fault);
        }
    }

    private static boolean isTrace(Path file) throws IOException {
        try (InputStream in = Files.newInputStream(file)) {
            return new String(in.readNBytes(START.length())).equals(START);
        }
    }

    private static void writeAll() {
        synchronized (TRACED) {
            for (int at = 0; at < TRACED.size(); at++) {
                String name = NAME + (at == 0 ? "" : "." + (at + 1));
                try {
                    TRACED.get(at).new Trace().write(name);
                } catch (RuntimeException | Error fault) {
                    say(name, "no trace was written: " + fault);
                }
            }
            say(NAME, untraced == 0 ? null : "no trace of " + untraced + " further phasers: " + MOST_PHASERS + " have one");
        }
    }
}
