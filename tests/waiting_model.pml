/* A model of what include/paldwosk_barrier.h adds to the archive's calls at a fast barrier, checked by tests/waiting_model with
 * spin in all orders in which the steps of its threads may be made.
 *
 * WHAT IT STANDS FOR. A thread comes by its handle, looks, sleeps and is woken. Another makes the barrier slow in the midst of
 * a phase: it closes the table, counts who is coming, and gives the lock back until these have told their calls. The slow
 * way, and the way back, once all stand level. Threads read and write in the order of the header.
 *
 * WHAT HAS TO HOLD, for each order:
 *   - All threads end. No wake-up is lost, and no two wait for each other: each state without a next step is one in which
 *     every thread has ended (spin's invalid end states).
 *   - No thread passes a phase before each other has begun to come to it (pass).
 *   - Who has made the barrier slow finds it slow, and finds the call told of each thread that had come before (switcher).
 *
 * THE ARCHIVE is what its calls are proved to do, each in the steps that it makes on the words that its tables have: a come
 * that is the last sets the count, and then raises `over`; a close claims the count, and then raises `over`. The phaser of the
 * slow way frees all once each is parked.
 *
 * WHAT IT LEAVES OUT. Weaker orders than one step after the other in memory (tests/simulated.c has those). Joins, leaves,
 * sends, looks at folds, calls of a second thread, and calls with a time. Counters that go round.
 *
 * NUMBERS, by -D: THREADS; PHASES; how often a thread without a task SWITCHES the barrier to slow.
 *
 * FAULTS, by -DFAULT=, each of which has to be found:
 *   1  the last wakes nobody
 *   2  a sleeper counts itself after it has looked for the last time
 *   3  a sleeper reads the turn after it has looked for the last time
 *   4  who closes the table wakes nobody
 *   5  who makes the barrier slow doesn't wait until all have told
 *   6  the last to tell doesn't wake who waits for that
 *   7  a thread says that it comes after it has come
 *   8  the barrier may be fast again while some wait for others to tell
 *   9  who tells waits until the others have told
 *  10  who had come stays counted */

#ifndef THREADS
#define THREADS 2
#endif
#ifndef PHASES
#define PHASES 2
#endif
#ifndef SWITCHES
#define SWITCHES 1
#endif
#ifndef FAULT
#define FAULT 0
#endif
#define ERAS 8
#define BIT(t) (1 << (t))
#define WHEN(is, then) if :: is -> then :: else fi
#define FOR_ALL(what) at = 0; do :: at < THREADS -> what; at++ :: else -> break od

mtype = { NOT_YET, DONE, CLOSED };
mtype = { SPINNING, ASLEEP, READY };

/* The archive's tables, by the era of each: how many haven't come, whether the keeper has claimed, and has raised `over`. */
byte count[ERAS], over[ERAS];
bit is_claimed[ERAS], is_closed[ERAS];

/* The header's words. */
byte era, turn, sleepers, untold, held, opened;
bit mutex;
byte coming[THREADS], handle[THREADS], stands[THREADS];
bit is_counted[THREADS];

/* The slow way: where a task stands, whether it is parked, and how its thread waits. */
byte passes[THREADS];
bit is_parked[THREADS];
mtype state[THREADS] = SPINNING;

byte asleep, awaiting; /* the kernel's: who sleeps on `turn`, and whether the switcher or others do on `untold` */
byte begun[THREADS];   /* for the properties: so many phases a thread has begun to come to */
bit had_come[THREADS]; /* and whether it had come by a table that was closed then */
hidden byte at;

inline lock() { atomic { !mutex -> mutex = 1 } }

inline sleep_on_turn(seen) { atomic { WHEN(turn == seen, asleep = asleep | BIT(me); !(asleep & BIT(me))) } }

inline wake_seats() { WHEN(sleepers > 0, turn++; asleep = 0) }

/* ---- The archive's calls */

inline look(h, at_phase, answer) {
  atomic {
    if
    :: over[h] > at_phase -> answer = DONE
    :: over[h] <= at_phase && is_closed[h] -> answer = CLOSED
    :: else -> answer = NOT_YET
    fi
  }
}

/* A raise may be late: the word has the greatest number that it was raised to. */
inline raise(h, number) { atomic { WHEN(over[h] < number, over[h] = number) } }

inline come(h, answer) {
  answer = NOT_YET;
  atomic {
    count[h]--;
    had_come[me] = !is_claimed[h];
    WHEN(count[h] == 0 && !is_claimed[h], answer = DONE)
  }
  WHEN(answer == DONE,
       d_step { count[h] = THREADS; FOR_ALL(passes[at]++; had_come[at] = 0) }; raise(h, stands[me] + 1))
}

/* ---- The lock's holder */

inline open_rounds() {
  d_step {
    is_level = (era % 2 == 0 && era + 2 < ERAS);
    FOR_ALL(is_level = is_level && !is_parked[at] && passes[at] == passes[0])
    ; is_level = is_level && (FAULT == 8 || untold == 0 && held == 0)
  }
  WHEN(is_level, d_step { count[era + 1] = THREADS; over[era + 1] = passes[0]; opened = passes[0] }; era++)
}

inline unlock() {
  open_rounds();
  mutex = 0
}

/* Gives the lock back until all have told. */
inline await_told() {
  held++;
#if FAULT != 5
  do
  :: untold > 0 ->
     seen = untold;
     mutex = 0;
     atomic { WHEN(untold == seen, awaiting = awaiting | BIT(me); !(awaiting & BIT(me))) }
     lock()
  :: else -> break
  od;
#endif
  held--
}

inline close_rounds() {
  h = era;
  era++;
  atomic { count[h] > 0 -> is_claimed[h] = 1 };
  atomic { is_closed[h] = 1; over[h] = passes[0] };
  d_step { FOR_ALL(is_counted[at] = (coming[at] == passes[at] + 1); untold = untold + is_counted[at]) }
#if FAULT != 4
  ; wake_seats()
#endif
}

inline uncount() {
  coming[me] = 0;
  WHEN(is_counted[me] && FAULT != 10,
       is_counted[me] = 0; untold--; WHEN(untold == 0 && held > 0 && FAULT != 6, awaiting = 0))
}

/* With the lock: the task parks. If it is the last, all are freed, and those that sleep are woken. */
inline call_slowly() {
  d_step {
    is_parked[me] = 1; had_come[me] = 0; is_level = 1; bits = 0;
    FOR_ALL(is_level = is_level && is_parked[at]);
    FOR_ALL(WHEN(is_level && state[at] == ASLEEP, bits = bits | BIT(at));
            WHEN(is_level, is_parked[at] = 0; passes[at]++; state[at] = READY))
  }
  WHEN(bits, turn++);
  unlock();
  asleep = asleep & ~bits;
  atomic { WHEN(state[me] == SPINNING, state[me] = ASLEEP) };
  do
  :: state[me] != READY ->
     seen = turn;
     WHEN(state[me] != READY, sleep_on_turn(seen))
  :: else -> break
  od;
  state[me] = SPINNING
}

inline wait_at_seat() {
#if FAULT != 2
  sleepers++;
#endif
  do
  :: answer == NOT_YET ->
#if FAULT != 3
     seen = turn;
#endif
     look(handle[me], stands[me], answer);
#if FAULT == 3
     seen = turn;
#endif
#if FAULT == 2
     WHEN(answer == NOT_YET, sleepers++; sleep_on_turn(seen); sleepers--)
#else
     WHEN(answer == NOT_YET, sleep_on_turn(seen))
#endif
  :: else -> break
  od;
#if FAULT != 2
  sleepers--
#else
  skip
#endif
}

inline pass() { d_step { FOR_ALL(assert(begun[at] > passed)) } }

/* ---- Threads */

proctype thread(byte me) {
  byte passed, seen, bits, h;
  mtype answer;
  bit is_level;
  do
  :: passed < PHASES ->
     begun[me] = passed + 1;
     answer = NOT_YET;
     do
     :: era % 2 == 1 && handle[me] == era ->
#if FAULT != 7
        coming[me] = stands[me] + 1;
#endif
        come(handle[me], answer);
#if FAULT == 7
        coming[me] = stands[me] + 1;
#endif
        if
        :: answer == DONE -> WHEN(FAULT != 1, wake_seats())
        :: else -> wait_at_seat()
        fi;
        if
        :: answer == DONE -> stands[me]++; coming[me] = 0; break
        :: else ->
           lock();
#if FAULT == 9
           await_told();
#endif
           uncount();
           if
           :: era % 2 == 1 -> handle[me] = era; stands[me] = opened; unlock(); answer = NOT_YET
           :: else -> call_slowly(); break
           fi
        fi
     :: era % 2 == 0 || handle[me] != era ->
        lock();
        if
        :: era % 2 == 1 -> handle[me] = era; stands[me] = opened; unlock()
        :: else -> await_told(); call_slowly(); break
        fi
     od;
     pass();
     passed++
  :: else -> break
  od
}

proctype switcher(byte me) {
  byte left = SWITCHES, seen, h;
  bit is_level;
  do
  :: left > 0 ->
     lock();
     WHEN(era % 2 == 1, close_rounds());
     await_told();
     d_step { assert(era % 2 == 0); FOR_ALL(assert(!had_come[at])) };
     unlock();
     left--
  :: else -> break
  od
}

init {
  byte h;
  atomic {
    era = 1;
    count[1] = THREADS;
    do :: h < THREADS -> handle[h] = 1; run thread(h); h++ :: else -> break od;
    run switcher(THREADS)
  }
}
