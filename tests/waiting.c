/* The program by which tests/waiting calls the barrier for threads that wait.
 *
 * waiting wrong: pointers, numbers, tasks and moments that are wrong, each of which must be answered so, and change
 *   nothing.
 * waiting memory: barriers that are made, or not for want of memory.
 * waiting missing: who keeps others waiting, at barriers with and without a trace.
 * waiting watched: what threads say that wait for longer than two seconds, and that each says it once.
 * waiting freed TIMES: barriers that are freed, and their memory taken away, right after the call that freed all who
 *   waited.
 * waiting yielding: threads that yield, are freed meanwhile, or sleep in the end.
 * waiting forked TIMES: calls in the child of a fork, while another thread has the lock now and then.
 * waiting interrupted: a call that a signal interrupts while it waits.
 * waiting cancelled: threads that are cancelled, in a call and out of one.
 * waiting facts: what the tests of other people's barriers say of these, as far as it has to hold here.
 * waiting stress THREADS PHASES MOST: turns of threads; who passes looks at all others, and at the sum of the phase.
 *   MOST is for how many pauses a thread spins at most.
 * waiting singles THREADS PHASES: a statement in each other phase, which one of the threads runs.
 * waiting bounded ITEMS BOUND: a producer that is held back by the slower of two consumers.
 * waiting traced THREADS PHASES: a traced run, whose trace is replayed, and has the report worked out by hand.
 * waiting told: traces that are asked for in the midst of calls, that can't tell all, and that end at each of their
 *   events.
 * waiting timed: calls with a time, each of which ends in time or later, and what goes on meanwhile.
 * waiting hasty THREADS PHASES: turns of threads as in stress, whose calls have a time that is often too short.
 * waiting crowd SECONDS SEED VISITORS KIND: so many threads that join, leave, and make any calls, at barriers with and
 *   without a trace. KIND 1: all calls leave the barrier fast; 2: nearly all, so that it is slow and fast in turn.
 * waiting rounds THREADS PHASES MOST: turns of threads as in stress, all of which are made at a fast barrier.
 * waiting uneven THREADS PHASES MOST: the same with signals, waits and times, so that few are.
 * waiting refused: calls of the archive that are refused. The program has it if it is compiled with WITH_REFUSALS.
 * waiting changing: calls that make a fast barrier slow, while tasks have come; after each it is fast again.
 * waiting prioritized: threads of two priorities on one processor, the higher of which waits for the lower.
 * Status 4: something wasn't as it must be, which standard error names. Status 5: there was no thread, or no memory. */
#ifdef WITH_REFUSALS
#include "../include/paldwosk.h"
/* The header calls these in the archive's place. */
#define phaser_c_level_open refusing_open
#define phaser_c_level_take refusing_take
#define phaser_c_level_join refusing_join
#define phaser_c_level_leave refusing_leave
static uint32_t refusing_open(paldwosk_level *level, paldwosk_waiting *phaser, const uint64_t *tasks, size_t count);
static uint32_t refusing_take(paldwosk_level *level, paldwosk_level_task *task);
static uint32_t refusing_join(paldwosk_level_task *task, paldwosk_level_task *other);
static uint32_t refusing_leave(paldwosk_level_task *task);
#endif
__attribute__((unused)) static void hold_between_looks(void); /* the portable way has no seats */
#define PALDWOSKI_BETWEEN_LOOKS() hold_between_looks()
#include "../include/paldwosk_barrier.h"

#include <inttypes.h>
#include <signal.h>
#include <stdio.h>
#include <string.h>
#include <sys/mman.h>
#include <sys/syscall.h>
#include <sys/wait.h>
#include <time.h>

enum { THREADS = 256, PHASES_KEPT = 1 << 16 };

static int faults;

static void fault(int line, const char *what) {
  if (__atomic_fetch_add(&faults, 1, __ATOMIC_RELAXED) < 20) fprintf(stderr, "waiting: line %d: %s\n", line, what);
}

#define MUST(holds)                                                                                                    \
  do {                                                                                                                 \
    if (!(holds)) fault(__LINE__, #holds);                                                                             \
  } while (0)

#define DONE(call) MUST((call) == PALDWOSK_DONE)

/* The program's own atomic variables. helgrind and drd don't know of atomics: what they judge is all the rest, which
 * the barrier alone orders. */
#ifdef UNDER_VALGRIND
#include <valgrind/drd.h>
#include <valgrind/helgrind.h>
#define IS_UNDER_VALGRIND 1
#define UNCHECKED(start, length)                                                                                       \
  do {                                                                                                                 \
    VALGRIND_HG_DISABLE_CHECKING(start, length);                                                                       \
    ANNOTATE_BENIGN_RACE_SIZED(start, length, "atomic");                                                               \
  } while (0)
#else
#define IS_UNDER_VALGRIND 0
#define UNCHECKED(start, length) (void)0
#endif

static void nothing(void *data) { (void)data; }

static __thread int is_to_hold;
static int is_held, is_to_go; /* atomic */

/* Holds a thread that is to be held, after it has seen that the barrier is fast, and before it is at its seat. */
static void hold_between_looks(void) {
  if (!is_to_hold) return;
  __atomic_store_n(&is_held, 1, __ATOMIC_SEQ_CST);
  while (!__atomic_load_n(&is_to_go, __ATOMIC_SEQ_CST)) sched_yield();
}

static void start(pthread_t *thread, void *(*body)(void *), void *given) {
  if (pthread_create(thread, NULL, body, given) != 0) exit(5);
}

static void rest(int milliseconds) { poll(NULL, 0, milliseconds); }

/* ---- Yields: the header's calls find this sched_yield. It counts, and does what the test wants in place of a yield. */

#ifdef __cplusplus
#define OF_LIBC extern "C"
#define AS_IN_LIBC noexcept
#else
#define OF_LIBC
#define AS_IN_LIBC
long syscall(long number, ...); /* -std=c11 hides it */
#endif

static struct yields {
  int count;                   /* atomic */
  void (*instead)(int number); /* NULL: a yield; it is set while no thread yields */
} yields;

OF_LIBC int sched_yield(void) AS_IN_LIBC {
  int number = __atomic_add_fetch(&yields.count, 1, __ATOMIC_RELAXED);
  if (!yields.instead) return (int)syscall(SYS_sched_yield);
  yields.instead(number);
  return 0;
}

/* ---- What the header has of a barrier that is fast. Without rounds it never is. */

#ifdef PALDWOSKI_IN_ROUNDS
enum { HAS_ROUNDS = 1 };
static int is_fast(const paldwosk_barrier *barrier) { return !paldwoski_is_slow(barrier); }

/* How often it has become fast or slow. */
static uint64_t changes_of(const paldwosk_barrier *barrier) {
  return __atomic_load_n(&barrier->rounds->era, __ATOMIC_SEQ_CST);
}

/* With the lock, at a fast barrier, by the task's own thread: where the task stands. */
static uint64_t phase_at_seat(const paldwosk_task *task) {
  const struct paldwoski_seat *seat = paldwoski_seat_of(task);
  return seat->era == changes_of(task->barrier) ? seat->phase : task->barrier->rounds->opened;
}

/* With the lock: how many have come at a fast barrier, and wait, or don't know yet that they needn't. */
static unsigned count_come(const paldwosk_barrier *barrier) {
  unsigned count = 0;
  for (int at = 0; at < PALDWOSKI_MOST_MEMBERS; at++) {
    const struct paldwoski_seat *seat = &barrier->rounds->seats[at];
    count += is_fast(barrier) && !paldwoski_is_left(seat) && __atomic_load_n(&seat->coming, __ATOMIC_SEQ_CST) != 0;
  }
  return count;
}
#else
enum { HAS_ROUNDS = 0 };
static int is_fast(const paldwosk_barrier *barrier) { return (void)barrier, 0; }
static uint64_t changes_of(const paldwosk_barrier *barrier) { return (void)barrier, 0; }
static uint64_t phase_at_seat(const paldwosk_task *task) { return (void)task, 0; }
static unsigned count_come(const paldwosk_barrier *barrier) { return (void)barrier, 0; }
#endif

/* Whether the barrier is fast, and has been since it had changed so often. So all phases since then were made by the
 * archive. Without rounds it never is. */
static int is_fast_since(paldwosk_barrier *barrier, uint64_t changes) {
  return is_fast(barrier) == HAS_ROUNDS && changes_of(barrier) == changes;
}

/* Whether as many threads as this sleep, spin or yield in calls of the barrier, in time. */
static int are_parked(paldwosk_barrier *barrier, unsigned count) {
  for (int tried = 0; tried < 20000; tried++, rest(1)) {
    unsigned found = 0;
    pthread_mutex_lock(&barrier->lock);
    for (struct paldwoski_sleeper *at = barrier->first; at; at = at->next) found++;
    found += count_come(barrier);
    pthread_mutex_unlock(&barrier->lock);
    if (found == count) return 1;
  }
  return 0;
}

/* ---- One call of another thread */

typedef struct call {
  paldwosk_task task;
  int kind; /* 'n'ext, 's'ignal, 'w'ait, in 'N' and 'W' with a minute's time, 1: the single of this number */
  paldwosk_answer answer;
  uint64_t phase;
  pthread_t thread;
} call;

static void *make_call(void *given) {
  call *it = (call *)given;
  it->phase = 77;
  errno = 77;
  if (it->kind == 'n') it->answer = paldwosk_barrier_next(&it->task, &it->phase);
  else if (it->kind == 's') it->answer = paldwosk_barrier_signal(&it->task);
  else if (it->kind == 'w') it->answer = paldwosk_barrier_wait(&it->task, &it->phase);
  else if (it->kind == 'N') it->answer = paldwosk_barrier_next_for(&it->task, 60000, &it->phase);
  else if (it->kind == 'W') it->answer = paldwosk_barrier_wait_for(&it->task, 60000, &it->phase);
  else it->answer = paldwosk_barrier_single(&it->task, (uint32_t)it->kind, nothing, NULL, &it->phase);
  MUST(errno == 77);
  return NULL;
}

static void begin_call(call *it, paldwosk_task task, int kind) {
  it->task = task;
  it->kind = kind;
  start(&it->thread, make_call, it);
}

static void end_call(call *it, paldwosk_answer answer, uint64_t phase) {
  pthread_join(it->thread, NULL);
  MUST(it->answer == answer && it->phase == phase);
}

/* The mode of the tasks of a party. With singles it is slow, without it is fast. */
static paldwosk_mode party_mode = PALDWOSK_SINGLE;

/* A barrier of so many tasks that signal and wait, bound 2, with a sum. */
static void make_party(paldwosk_barrier *barrier, paldwosk_task *tasks, int count) {
  const paldwosk_operator sum = PALDWOSK_SUM;
  memset(barrier, 0, sizeof *barrier);
  DONE(paldwosk_barrier_new(barrier, 2, &sum, 1));
  DONE(paldwosk_barrier_make(barrier, party_mode, &tasks[0]));
  for (int at = 1; at < count; at++) DONE(paldwosk_barrier_join(&tasks[0], party_mode, &tasks[at]));
}

static void in_both_modes(void (*body)(void)) {
  body();
  party_mode = PALDWOSK_SIG_WAIT;
  body();
  party_mode = PALDWOSK_SINGLE;
}

/* Makes a barrier in one of four ways: without a trace and with one, in memory of nulls and in memory of anything. */
static paldwosk_answer make_in_way(paldwosk_barrier *barrier, int way, uint32_t bound) {
  const paldwosk_operator sum = PALDWOSK_SUM;
  memset(barrier, way < 2 ? 0 : 0xa5, sizeof *barrier);
  if (way == 0) return paldwosk_barrier_new(barrier, bound, &sum, 1);
  if (way == 1) return paldwosk_barrier_new_traced(barrier, bound, &sum, 1);
  if (way == 2) return paldwosk_barrier_init(barrier, bound, &sum, 1);
  return paldwosk_barrier_init_traced(barrier, bound, &sum, 1);
}

/* ---- What is wrong is answered so */

static void wrong_pointers(void) {
  paldwosk_barrier barrier = PALDWOSK_NO_BARRIER, other = PALDWOSK_NO_BARRIER;
  paldwosk_task zeroed = PALDWOSK_NO_TASK, task = PALDWOSK_NO_TASK, child = {&other, 77, 0};
  int64_t value = 77;
  uint64_t phase = 77;
  size_t written = 77;
  MUST(paldwosk_barrier_new(NULL, 2, NULL, 0) == PALDWOSK_NULL);
  MUST(paldwosk_barrier_new(&barrier, 2, NULL, 1) == PALDWOSK_NULL);
  MUST(paldwosk_barrier_new_traced(NULL, 2, NULL, 0) == PALDWOSK_NULL);
  MUST(paldwosk_barrier_free(NULL) == PALDWOSK_NULL);
  DONE(paldwosk_barrier_new(&barrier, 2, NULL, 0));
  MUST(paldwosk_barrier_make(NULL, PALDWOSK_SIG, &task) == PALDWOSK_NULL);
  MUST(paldwosk_barrier_make(&barrier, PALDWOSK_SIG, NULL) == PALDWOSK_NULL);
  DONE(paldwosk_barrier_make(&barrier, PALDWOSK_SINGLE, &task));
  MUST(task.barrier == &barrier && task.number == 0);
  MUST(paldwosk_barrier_join(NULL, PALDWOSK_SIG, &child) == PALDWOSK_NULL);
  MUST(paldwosk_barrier_join(&zeroed, PALDWOSK_SIG, &child) == PALDWOSK_NULL);
  MUST(paldwosk_barrier_join(&task, PALDWOSK_SIG, NULL) == PALDWOSK_NULL);
  MUST(child.barrier == &other && child.number == 77);
  const paldwosk_task *none[] = {NULL, &zeroed};
  for (int at = 0; at < 2; at++) {
    MUST(paldwosk_barrier_next(none[at], &phase) == PALDWOSK_NULL);
    MUST(paldwosk_barrier_signal(none[at]) == PALDWOSK_NULL);
    MUST(paldwosk_barrier_wait(none[at], &phase) == PALDWOSK_NULL);
    MUST(paldwosk_barrier_send(none[at], 0, 1) == PALDWOSK_NULL);
    MUST(paldwosk_barrier_look(none[at], 0, &value) == PALDWOSK_NULL);
    MUST(paldwosk_barrier_single(none[at], 1, nothing, NULL, &phase) == PALDWOSK_NULL);
    MUST(paldwosk_barrier_next_for(none[at], 1, &phase) == PALDWOSK_NULL);
    MUST(paldwosk_barrier_try_next(none[at], &phase) == PALDWOSK_NULL);
    MUST(paldwosk_barrier_signal_for(none[at], 1) == PALDWOSK_NULL);
    MUST(paldwosk_barrier_try_signal(none[at]) == PALDWOSK_NULL);
    MUST(paldwosk_barrier_wait_for(none[at], 1, &phase) == PALDWOSK_NULL);
    MUST(paldwosk_barrier_try_wait(none[at], &phase) == PALDWOSK_NULL);
    MUST(paldwosk_barrier_single_for(none[at], 1, 1, nothing, NULL, &phase) == PALDWOSK_NULL);
    MUST(paldwosk_barrier_try_single(none[at], 1, nothing, NULL, &phase) == PALDWOSK_NULL);
    MUST(paldwosk_barrier_leave(none[at]) == PALDWOSK_NULL);
  }
  MUST(paldwosk_barrier_look(&task, 0, NULL) == PALDWOSK_NULL);
  MUST(paldwosk_barrier_single(&task, 1, NULL, NULL, &phase) == PALDWOSK_NULL);
  MUST(paldwosk_barrier_single_for(&task, 1, 1, NULL, NULL, &phase) == PALDWOSK_NULL);
  MUST(paldwosk_barrier_try_single(&task, 1, NULL, NULL, &phase) == PALDWOSK_NULL);
  MUST(paldwosk_barrier_spin(NULL, 1) == PALDWOSK_NULL);
  MUST(paldwosk_barrier_missing(NULL, &phase, 1, &written) == PALDWOSK_NULL);
  MUST(paldwosk_barrier_missing(&barrier, &phase, 1, NULL) == PALDWOSK_NULL);
  MUST(paldwosk_barrier_missing(&barrier, NULL, 1, &written) == PALDWOSK_NULL);
  MUST(paldwosk_barrier_trace(NULL, NULL, 0, &written) == PALDWOSK_NULL);
  MUST(paldwosk_barrier_trace(&barrier, NULL, 1, &written) == PALDWOSK_NULL);
  MUST(paldwosk_barrier_trace(&barrier, NULL, 0, NULL) == PALDWOSK_NULL);
  MUST(paldwosk_barrier_trace(&barrier, NULL, 0, &written) == PALDWOSK_NOT_KEPT);
  MUST(!paldwosk_barrier_trace_ended(NULL) && !paldwosk_barrier_trace_ended(&barrier));
  MUST(value == 77 && phase == 77 && written == 77);
  DONE(paldwosk_barrier_next(&task, NULL)); /* nothing was signalled; and the phase isn't wanted */
  DONE(paldwosk_barrier_next_for(&task, 1, NULL));
  DONE(paldwosk_barrier_next(&task, &phase));
  MUST(phase == 2);
  DONE(paldwosk_barrier_free(&barrier));
}

static void wrong_init(void) {
  paldwosk_barrier *barrier = (paldwosk_barrier *)malloc(sizeof *barrier); /* memcheck tells if it is read */
  paldwosk_task task = PALDWOSK_NO_TASK;
  if (!barrier) exit(5);
  MUST(paldwosk_barrier_init(NULL, 2, NULL, 0) == PALDWOSK_NULL);
  MUST(paldwosk_barrier_init_traced(NULL, 2, NULL, 0) == PALDWOSK_NULL);
  MUST(paldwosk_barrier_init(barrier, 0, NULL, 0) == PALDWOSK_BAD_BOUND);
  MUST(paldwosk_barrier_make(barrier, PALDWOSK_SIG, &task) == PALDWOSK_CLOSED);
  MUST(paldwosk_barrier_free(barrier) == PALDWOSK_CLOSED);
  free(barrier);
  barrier = (paldwosk_barrier *)malloc(sizeof *barrier);
  if (!barrier) exit(5);
  DONE(paldwosk_barrier_init(barrier, 2, NULL, 0));
  MUST(paldwosk_barrier_init(barrier, 2, NULL, 1) == PALDWOSK_NULL); /* before anything is written */
  MUST(paldwosk_barrier_new(barrier, 2, NULL, 0) == PALDWOSK_OPEN);
  DONE(paldwosk_barrier_make(barrier, PALDWOSK_SIG_WAIT, &task));
  DONE(paldwosk_barrier_next(&task, NULL));
  DONE(paldwosk_barrier_free(barrier));
  DONE(paldwosk_barrier_init_traced(barrier, 2, NULL, 0));
  MUST(!paldwosk_barrier_trace_ended(barrier) && barrier->trace);
  DONE(paldwosk_barrier_free(barrier));
  free(barrier);
}

static void wrong_numbers(void) {
  const paldwosk_operator good[4] = {PALDWOSK_SUM, PALDWOSK_LEAST, PALDWOSK_GREATEST, PALDWOSK_SUM};
  const paldwosk_operator bad[2] = {PALDWOSK_SUM, (paldwosk_operator)3};
  const paldwosk_operator five[5] = {PALDWOSK_SUM, PALDWOSK_SUM, PALDWOSK_SUM, PALDWOSK_SUM, PALDWOSK_SUM};
  paldwosk_barrier barrier = PALDWOSK_NO_BARRIER;
  paldwosk_task task = PALDWOSK_NO_TASK, child = PALDWOSK_NO_TASK;
  int64_t value = 77;
  MUST(paldwosk_barrier_new(&barrier, 2, bad, 2) == PALDWOSK_BAD_OPERATORS);
  MUST(paldwosk_barrier_new(&barrier, 2, five, 5) == PALDWOSK_BAD_OPERATORS);
  MUST(paldwosk_barrier_new(&barrier, 0, bad, 2) == PALDWOSK_BAD_OPERATORS);
  MUST(paldwosk_barrier_new(&barrier, 0, good, 4) == PALDWOSK_BAD_BOUND);
  MUST(paldwosk_barrier_new_traced(&barrier, 65537, good, 4) == PALDWOSK_BAD_BOUND);
  MUST(paldwosk_barrier_make(&barrier, PALDWOSK_SIG, &task) == PALDWOSK_CLOSED);
  DONE(paldwosk_barrier_new(&barrier, 65536, good, 4));
  MUST(paldwosk_barrier_new(&barrier, 2, NULL, 0) == PALDWOSK_OPEN);
  MUST(paldwosk_barrier_make(&barrier, (paldwosk_mode)4, &task) == PALDWOSK_BAD_MODE);
  MUST(task.barrier == NULL);
  DONE(paldwosk_barrier_make(&barrier, PALDWOSK_SIG_WAIT, &task));
  MUST(paldwosk_barrier_make(&barrier, PALDWOSK_SIG_WAIT, &child) == PALDWOSK_NOT_NOW);
  MUST(paldwosk_barrier_join(&task, (paldwosk_mode)4, &child) == PALDWOSK_BAD_MODE);
  MUST(paldwosk_barrier_join(&task, PALDWOSK_SINGLE, &child) == PALDWOSK_MORE_THAN_PARENT);
  MUST(child.barrier == NULL);
  MUST(paldwosk_barrier_send(&task, 4, 1) == PALDWOSK_NO_ACCUMULATOR);
  MUST(paldwosk_barrier_send(&task, 256, 1) == PALDWOSK_NO_ACCUMULATOR);
  MUST(paldwosk_barrier_look(&task, 4, &value) == PALDWOSK_NO_ACCUMULATOR);
  MUST(paldwosk_barrier_look(&task, UINT32_MAX, &value) == PALDWOSK_NO_ACCUMULATOR);
  MUST(paldwosk_barrier_look(&task, 3, &value) == PALDWOSK_NO_PHASE_YET);
  DONE(paldwosk_barrier_send(&task, 3, INT32_MIN));
  DONE(paldwosk_barrier_next(&task, NULL));
  MUST(paldwosk_barrier_look(&task, 1, &value) == PALDWOSK_NOTHING && value == 77);
  DONE(paldwosk_barrier_look(&task, 3, &value));
  MUST(value == INT32_MIN);
  DONE(paldwosk_barrier_look(&task, 0, &value));
  MUST(value == 0);
  DONE(paldwosk_barrier_free(&barrier));
}

static void wrong_modes(void) {
  paldwosk_barrier barrier = PALDWOSK_NO_BARRIER;
  paldwosk_task all = PALDWOSK_NO_TASK, signals = PALDWOSK_NO_TASK, waits = PALDWOSK_NO_TASK;
  uint64_t phase = 77;
  int64_t value = 77;
  DONE(paldwosk_barrier_new(&barrier, 2, NULL, 0));
  DONE(paldwosk_barrier_make(&barrier, PALDWOSK_SIG_WAIT, &all));
  DONE(paldwosk_barrier_join(&all, PALDWOSK_SIG, &signals));
  DONE(paldwosk_barrier_join(&all, PALDWOSK_WAIT, &waits));
  MUST(paldwosk_barrier_next(&waits, &phase) == PALDWOSK_NO_SIGNAL);
  MUST(paldwosk_barrier_next_for(&waits, 1, &phase) == PALDWOSK_NO_SIGNAL);
  MUST(paldwosk_barrier_try_signal(&waits) == PALDWOSK_NO_SIGNAL);
  MUST(paldwosk_barrier_signal(&waits) == PALDWOSK_NO_SIGNAL);
  MUST(paldwosk_barrier_send(&waits, 0, 1) == PALDWOSK_NO_SIGNAL);
  MUST(paldwosk_barrier_look(&signals, 0, &value) == PALDWOSK_NO_WAIT);
  MUST(paldwosk_barrier_single(&all, 1, nothing, NULL, &phase) == PALDWOSK_NO_SINGLE);
  MUST(paldwosk_barrier_wait(&all, &phase) == PALDWOSK_NOT_SIGNALLED);
  MUST(paldwosk_barrier_wait_for(&all, 1, &phase) == PALDWOSK_NOT_SIGNALLED);
  MUST(paldwosk_barrier_try_wait(&all, &phase) == PALDWOSK_NOT_SIGNALLED);
  MUST(paldwosk_barrier_try_single(&all, 1, nothing, NULL, &phase) == PALDWOSK_NO_SINGLE);
  DONE(paldwosk_barrier_signal(&all));
  MUST(paldwosk_barrier_signal(&all) == PALDWOSK_ALREADY_SIGNALLED);
  MUST(paldwosk_barrier_next(&all, &phase) == PALDWOSK_ALREADY_SIGNALLED && phase == 77);
  DONE(paldwosk_barrier_next(&signals, &phase));
  MUST(phase == 0);
  DONE(paldwosk_barrier_wait(&waits, &phase));
  DONE(paldwosk_barrier_wait(&all, &phase));
  MUST(phase == 0);
  DONE(paldwosk_barrier_free(&barrier));
}

static void wrong_tasks(void) {
  paldwosk_barrier barrier;
  paldwosk_task tasks[THREADS] = {PALDWOSK_NO_TASK}, more = PALDWOSK_NO_TASK;
  int64_t value = 77;
  size_t written = 77;
  make_party(&barrier, tasks, THREADS);
  MUST(paldwosk_barrier_join(&tasks[0], PALDWOSK_SIG, &more) == PALDWOSK_REGS_FULL);
  DONE(paldwosk_barrier_leave(&tasks[255]));
  MUST(paldwosk_barrier_leave(&tasks[255]) == PALDWOSK_NOT_REGISTERED);
  MUST(paldwosk_barrier_next(&tasks[255], NULL) == PALDWOSK_NOT_REGISTERED);
  MUST(paldwosk_barrier_signal(&tasks[255]) == PALDWOSK_NOT_REGISTERED);
  MUST(paldwosk_barrier_wait(&tasks[255], NULL) == PALDWOSK_NOT_REGISTERED);
  MUST(paldwosk_barrier_single(&tasks[255], 1, nothing, NULL, NULL) == PALDWOSK_NOT_REGISTERED);
  MUST(paldwosk_barrier_send(&tasks[255], 0, 1) == PALDWOSK_NOT_REGISTERED);
  MUST(paldwosk_barrier_join(&tasks[255], PALDWOSK_SIG, &more) == PALDWOSK_NOT_REGISTERED && !more.barrier);
  DONE(paldwosk_barrier_join(&tasks[0], PALDWOSK_SIG, &more));
  MUST(more.number == 256); /* no number is given out again */
  DONE(paldwosk_barrier_free(&barrier));
  MUST(paldwosk_barrier_free(&barrier) == PALDWOSK_CLOSED);
  MUST(paldwosk_barrier_next(&tasks[0], NULL) == PALDWOSK_CLOSED);
  MUST(paldwosk_barrier_signal(&tasks[0]) == PALDWOSK_CLOSED);
  MUST(paldwosk_barrier_wait(&tasks[0], NULL) == PALDWOSK_CLOSED);
  MUST(paldwosk_barrier_single(&tasks[0], 1, nothing, NULL, NULL) == PALDWOSK_CLOSED);
  MUST(paldwosk_barrier_send(&tasks[0], 0, 1) == PALDWOSK_CLOSED);
  MUST(paldwosk_barrier_look(&tasks[0], 0, &value) == PALDWOSK_CLOSED);
  MUST(paldwosk_barrier_try_next(&tasks[0], NULL) == PALDWOSK_CLOSED);
  MUST(paldwosk_barrier_leave(&tasks[0]) == PALDWOSK_CLOSED);
  MUST(paldwosk_barrier_join(&tasks[0], PALDWOSK_SIG, &more) == PALDWOSK_CLOSED);
  MUST(paldwosk_barrier_make(&barrier, PALDWOSK_SIG, &more) == PALDWOSK_CLOSED);
  MUST(paldwosk_barrier_spin(&barrier, 1) == PALDWOSK_CLOSED);
  MUST(paldwosk_barrier_missing(&barrier, NULL, 0, &written) == PALDWOSK_CLOSED && written == 77);
  MUST(paldwosk_barrier_trace(&barrier, NULL, 0, &written) == PALDWOSK_CLOSED);
  DONE(paldwosk_barrier_new(&barrier, 1, NULL, 0)); /* its struct may be used again */
  DONE(paldwosk_barrier_free(&barrier));
}

/* While task 0 waits for the two others. */
static void wrong_moments(void) {
  paldwosk_barrier barrier;
  paldwosk_task tasks[3] = {PALDWOSK_NO_TASK};
  call first, second, third;
  make_party(&barrier, tasks, 3);
  begin_call(&first, tasks[0], 'n');
  MUST(are_parked(&barrier, 1));
  MUST(paldwosk_barrier_free(&barrier) == PALDWOSK_NOT_NOW);
  MUST(paldwosk_barrier_next(&tasks[0], NULL) == PALDWOSK_NOT_NOW);
  MUST(paldwosk_barrier_wait(&tasks[0], NULL) == PALDWOSK_NOT_NOW);
  MUST(paldwosk_barrier_signal(&tasks[0]) == PALDWOSK_NOT_NOW);
  MUST(paldwosk_barrier_single(&tasks[0], 1, nothing, NULL, NULL) == PALDWOSK_NOT_NOW);
  MUST(paldwosk_barrier_next_for(&tasks[0], 1, NULL) == PALDWOSK_NOT_NOW); /* another thread has its call */
  begin_call(&second, tasks[1], 5); /* it proposes single 5 */
  MUST(are_parked(&barrier, 2));
  MUST(paldwosk_barrier_single(&tasks[2], 6, nothing, NULL, NULL) == PALDWOSK_SINGLE_MISMATCH);
  MUST(paldwosk_barrier_leave(&tasks[1]) == PALDWOSK_NOT_NOW);
  begin_call(&third, tasks[2], 'n');
  end_call(&first, PALDWOSK_DONE, 0);
  end_call(&second, PALDWOSK_DONE, 0);
  end_call(&third, PALDWOSK_DONE, 0);
  begin_call(&first, tasks[0], 'n'); /* who waits, and is made to leave by another thread, is answered so */
  MUST(are_parked(&barrier, 1));
  DONE(paldwosk_barrier_leave(&tasks[0]));
  end_call(&first, PALDWOSK_NOT_REGISTERED, 77);
  DONE(paldwosk_barrier_leave(&tasks[1]));
  DONE(paldwosk_barrier_next(&tasks[2], NULL));
  DONE(paldwosk_barrier_free(&barrier));
}

/* Both signals are held by the bound, with two numbers. The first that is let go on fixes the number of the phase. */
static void wrong_proposal(void) {
  paldwosk_barrier barrier = PALDWOSK_NO_BARRIER;
  paldwosk_task tasks[2] = {PALDWOSK_NO_TASK}, waits = PALDWOSK_NO_TASK;
  call first, second;
  DONE(paldwosk_barrier_new(&barrier, 1, NULL, 0));
  DONE(paldwosk_barrier_make(&barrier, PALDWOSK_SINGLE, &tasks[0]));
  DONE(paldwosk_barrier_join(&tasks[0], PALDWOSK_WAIT, &waits));
  DONE(paldwosk_barrier_next(&tasks[0], NULL));
  DONE(paldwosk_barrier_join(&tasks[0], PALDWOSK_SINGLE, &tasks[1]));
  begin_call(&first, tasks[0], 5);
  MUST(are_parked(&barrier, 1));
  begin_call(&second, tasks[1], 6);
  MUST(are_parked(&barrier, 2));
  MUST(paldwosk_barrier_free(&barrier) == PALDWOSK_NOT_NOW);
  DONE(paldwosk_barrier_wait(&waits, NULL));
  end_call(&second, PALDWOSK_SINGLE_MISMATCH, 77);
  begin_call(&second, tasks[1], 'n');
  end_call(&first, PALDWOSK_DONE, 1);
  end_call(&second, PALDWOSK_DONE, 1);
  DONE(paldwosk_barrier_free(&barrier));
}

typedef struct inside {
  paldwosk_barrier *barrier;
  paldwosk_task task;
  int runs;
} inside;

/* What its task may do in a statement, and what not. */
static void in_statement(void *given) {
  inside *it = (inside *)given;
  paldwosk_task child = PALDWOSK_NO_TASK;
  it->runs++;
  MUST(paldwosk_barrier_free(it->barrier) == PALDWOSK_NOT_NOW);
  MUST(paldwosk_barrier_leave(&it->task) == PALDWOSK_NOT_NOW);
  MUST(paldwosk_barrier_signal(&it->task) == PALDWOSK_ALREADY_SIGNALLED);
  MUST(paldwosk_barrier_wait(&it->task, NULL) == PALDWOSK_NOT_NOW);
  MUST(paldwosk_barrier_try_wait(&it->task, NULL) == PALDWOSK_NOT_NOW);
  DONE(paldwosk_barrier_send(&it->task, 0, 40)); /* for the next phase */
  DONE(paldwosk_barrier_join(&it->task, PALDWOSK_SIG, &child));
  DONE(paldwosk_barrier_leave(&child));
}

static void wrong_in_statement(void) {
  paldwosk_barrier barrier;
  inside it = {&barrier, PALDWOSK_NO_TASK, 0};
  int64_t value = 77;
  make_party(&barrier, &it.task, 1);
  DONE(paldwosk_barrier_send(&it.task, 0, 2));
  DONE(paldwosk_barrier_single(&it.task, 9, in_statement, &it, NULL));
  DONE(paldwosk_barrier_look(&it.task, 0, &value));
  MUST(it.runs == 1 && value == 2);
  DONE(paldwosk_barrier_next(&it.task, NULL));
  DONE(paldwosk_barrier_look(&it.task, 0, &value));
  MUST(value == 40);
  DONE(paldwosk_barrier_free(&barrier));
}

static void wrong(void) {
  wrong_pointers();
  wrong_init();
  wrong_numbers();
  wrong_modes();
  wrong_tasks();
  wrong_moments();
  wrong_proposal();
  wrong_in_statement();
}

static void memory(void) {
  for (int way = 0; way < 4; way++) {
    paldwosk_barrier barrier;
    paldwosk_task task = PALDWOSK_NO_TASK, other = PALDWOSK_NO_TASK;
    paldwosk_answer answer = make_in_way(&barrier, way, 2);
    int is_traced = way % 2;
    MUST(answer == PALDWOSK_DONE || answer == PALDWOSK_MEMORY);
    paldwosk_answer made = paldwosk_barrier_make(&barrier, PALDWOSK_SIG_WAIT, &task);
    MUST(made == (answer == PALDWOSK_DONE ? PALDWOSK_DONE : PALDWOSK_CLOSED));
    size_t written = 0;
    if (made == PALDWOSK_DONE) { /* no answer depends on memory any more, whether the barrier can be fast or not */
      MUST(paldwosk_barrier_trace(&barrier, NULL, 0, &written) == (is_traced ? PALDWOSK_SHORT : PALDWOSK_NOT_KEPT));
      DONE(paldwosk_barrier_send(&task, 0, 1));
      DONE(paldwosk_barrier_next(&task, NULL));
      DONE(paldwosk_barrier_join(&task, PALDWOSK_SIG_WAIT, &other));
      DONE(paldwosk_barrier_send(&other, 0, 1));
      DONE(paldwosk_barrier_leave(&other));
      DONE(paldwosk_barrier_next(&task, NULL));
    }
    MUST(paldwosk_barrier_free(&barrier) == made);
  }
}

/* ---- Who keeps others waiting */

/* Whether these are the missing tasks: their numbers, as text. */
static int misses(paldwosk_barrier *barrier, const char *wanted) {
  uint64_t tasks[THREADS];
  char found[400] = "";
  size_t count = 77, again = 77, length = 0;
  tasks[0] = 77;
  paldwosk_answer answer = paldwosk_barrier_missing(barrier, tasks, 0, &count);
  MUST(answer == (count ? PALDWOSK_SHORT : PALDWOSK_DONE) && tasks[0] == 77);
  if (count) MUST(paldwosk_barrier_missing(barrier, tasks, count - 1, &again) == PALDWOSK_SHORT && tasks[0] == 77);
  DONE(paldwosk_barrier_missing(barrier, tasks, count, &again));
  MUST(again == count);
  for (size_t at = 0; at < count && length < 300; at++)
    length += (size_t)snprintf(found + length, 24, at ? " %" PRIu64 : "%" PRIu64, tasks[at]);
  if (strcmp(found, wanted)) fprintf(stderr, "waiting: missing are \"%s\", not \"%s\"\n", found, wanted);
  return !strcmp(found, wanted);
}

static void make_in_turn(paldwosk_barrier *barrier, int way, uint32_t bound, paldwosk_task *tasks, int count) {
  DONE(make_in_way(barrier, way, bound));
  DONE(paldwosk_barrier_make(barrier, PALDWOSK_SINGLE, &tasks[0]));
  for (int at = 1; at < count; at++) DONE(paldwosk_barrier_join(&tasks[0], PALDWOSK_SINGLE, &tasks[at]));
}

static void missing_in_turn(int way) {
  paldwosk_barrier barrier;
  paldwosk_task tasks[4] = {PALDWOSK_NO_TASK}, late = PALDWOSK_NO_TASK;
  call first, second;
  make_in_turn(&barrier, way, 2, tasks, 4);
  MUST(misses(&barrier, "")); /* none has signalled, but nobody waits */
  begin_call(&first, tasks[0], 'n');
  MUST(are_parked(&barrier, 1) && misses(&barrier, "1 2 3"));
  DONE(paldwosk_barrier_signal(&tasks[2]));
  MUST(misses(&barrier, "1 3"));
  DONE(paldwosk_barrier_join(&tasks[0], PALDWOSK_SIG_WAIT, &late)); /* it has signalled, as its parent has */
  MUST(misses(&barrier, "1 3"));
  begin_call(&second, tasks[1], 'n');
  MUST(are_parked(&barrier, 2) && misses(&barrier, "3"));
  DONE(paldwosk_barrier_leave(&tasks[3]));
  end_call(&first, PALDWOSK_DONE, 0);
  end_call(&second, PALDWOSK_DONE, 0);
  MUST(misses(&barrier, ""));
  begin_call(&first, tasks[0], 'n'); /* the tasks 2 and 4 have signalled phase 0, and haven't passed it */
  MUST(are_parked(&barrier, 1) && misses(&barrier, "1 2 4"));
  DONE(paldwosk_barrier_leave(&tasks[0])); /* so nobody waits */
  end_call(&first, PALDWOSK_NOT_REGISTERED, 77);
  MUST(misses(&barrier, ""));
  DONE(paldwosk_barrier_free(&barrier));
}

static void see_missing(void *given) { MUST(misses((paldwosk_barrier *)given, "1")); }

static void *propose_and_see(void *given) {
  paldwosk_task *task = (paldwosk_task *)given;
  DONE(paldwosk_barrier_single(task, 5, see_missing, task->barrier, NULL));
  return NULL;
}

/* Task 1 proposes and task 0 doesn't. So task 1 runs the statement, and task 0 waits for that. */
static void missing_in_single(int way) {
  paldwosk_barrier barrier;
  paldwosk_task tasks[2] = {PALDWOSK_NO_TASK};
  pthread_t proposer;
  call next;
  make_in_turn(&barrier, way, 2, tasks, 2);
  begin_call(&next, tasks[0], 'n');
  MUST(are_parked(&barrier, 1));
  start(&proposer, propose_and_see, &tasks[1]);
  end_call(&next, PALDWOSK_DONE, 0);
  pthread_join(proposer, NULL);
  MUST(misses(&barrier, ""));
  DONE(paldwosk_barrier_free(&barrier));
}

/* A signaller, number 1, and two waiters, 2 and 3. The bound is 1, so phase 1 is signalled once both have waited for
 * phase 0. */
static void missing_by_bound(int way) {
  paldwosk_barrier barrier;
  paldwosk_task root = PALDWOSK_NO_TASK, signals = PALDWOSK_NO_TASK, waits[2] = {PALDWOSK_NO_TASK};
  paldwosk_task late = PALDWOSK_NO_TASK;
  call first, second;
  make_in_turn(&barrier, way, 1, &root, 1);
  DONE(paldwosk_barrier_join(&root, PALDWOSK_SIG, &signals));
  for (int at = 0; at < 2; at++) DONE(paldwosk_barrier_join(&root, PALDWOSK_WAIT, &waits[at]));
  DONE(paldwosk_barrier_leave(&root));
  DONE(paldwosk_barrier_next(&signals, NULL));
  begin_call(&first, signals, 's');
  MUST(are_parked(&barrier, 1) && misses(&barrier, "2 3"));
  DONE(paldwosk_barrier_wait(&waits[0], NULL));
  MUST(misses(&barrier, "3"));
  DONE(paldwosk_barrier_wait(&waits[1], NULL));
  end_call(&first, PALDWOSK_DONE, 77);
  MUST(misses(&barrier, ""));
  DONE(paldwosk_barrier_wait(&waits[0], NULL));
  begin_call(&second, waits[0], 'w'); /* for phase 2 */
  MUST(are_parked(&barrier, 1) && misses(&barrier, "1"));
  DONE(paldwosk_barrier_wait(&signals, NULL));
  begin_call(&first, signals, 'n'); /* held until task 3 has waited for phase 1 */
  MUST(are_parked(&barrier, 2) && misses(&barrier, "3"));
  DONE(paldwosk_barrier_join(&signals, PALDWOSK_SIG, &late)); /* task 4 hasn't signalled phase 2, nor has its parent */
  MUST(misses(&barrier, "3 4"));
  DONE(paldwosk_barrier_wait(&waits[1], NULL));
  end_call(&first, PALDWOSK_DONE, 2);
  MUST(misses(&barrier, "4"));
  DONE(paldwosk_barrier_signal(&late));
  end_call(&second, PALDWOSK_DONE, 2);
  DONE(paldwosk_barrier_free(&barrier));
}

/* The numbers 1, 513 and 1,025 have the same first place in the header's table, and 2 has the next. */
static void missing_of_many(int way) {
  paldwosk_barrier barrier;
  paldwosk_task root = PALDWOSK_NO_TASK, task = PALDWOSK_NO_TASK, kept[4] = {PALDWOSK_NO_TASK};
  call next;
  make_in_turn(&barrier, way, 2, &root, 1);
  for (int at = 1, count = 0; at <= 1025; at++) {
    DONE(paldwosk_barrier_join(&root, PALDWOSK_SIG, &task));
    if (at == 1 || at == 2 || at == 513 || at == 1025) kept[count++] = task;
    else DONE(paldwosk_barrier_leave(&task));
  }
  begin_call(&next, root, 'n');
  MUST(are_parked(&barrier, 1) && misses(&barrier, "1 2 513 1025"));
  DONE(paldwosk_barrier_leave(&kept[0]));
  MUST(misses(&barrier, "2 513 1025"));
  DONE(paldwosk_barrier_signal(&kept[2]));
  MUST(misses(&barrier, "2 1025"));
  DONE(paldwosk_barrier_leave(&kept[1]));
  MUST(misses(&barrier, "1025"));
  DONE(paldwosk_barrier_signal(&kept[3]));
  end_call(&next, PALDWOSK_DONE, 0);
  MUST(misses(&barrier, "") && barrier.tasks == 3);
  DONE(paldwosk_barrier_free(&barrier));
}

static void missing(void) {
  for (int way = 0; way < 4; way++) {
    missing_in_turn(way);
    missing_in_single(way);
    missing_by_bound(way);
    missing_of_many(way);
  }
}

/* ---- What a thread says that waits for long */

int setenv(const char *name, const char *value, int is_forced); /* -std=c11 hides it */

static size_t count_of(const char *text, const char *word) {
  size_t count = 0;
  for (; (text = strstr(text, word)) != NULL; text += strlen(word)) count++;
  return count;
}

/* What is said to standard error from here on is listened to. */
static struct ear {
  int ends[2], kept;
} ear;

static void listen_to_errors(void) {
  ear.kept = dup(STDERR_FILENO);
  if (ear.kept < 0 || pipe(ear.ends) != 0 || dup2(ear.ends[1], STDERR_FILENO) < 0) exit(5);
}

/* Leaves in `said` what was said since, and listens no longer. */
static void hear(char *said, size_t room) {
  size_t length = 0;
  if (dup2(ear.kept, STDERR_FILENO) < 0) exit(5);
  close(ear.kept);
  close(ear.ends[1]);
  for (ssize_t got; (got = read(ear.ends[0], said + length, room - 1 - length)) > 0;) length += (size_t)got;
  said[length] = 0;
  close(ear.ends[0]);
}

/* Half of the tasks wait, the others come after three and a half seconds. What was said to standard error meanwhile is
 * left in `said`. */
static void wait_for_long(int way, int count, char *said, size_t room) {
  static call calls[THREADS];
  paldwosk_barrier barrier;
  paldwosk_task tasks[THREADS] = {PALDWOSK_NO_TASK};
  make_in_turn(&barrier, way, 2, tasks, count);
  for (int at = 0; at < count; at++) DONE(paldwosk_barrier_signal(&tasks[at]));
  for (int at = 0; at < count; at++) DONE(paldwosk_barrier_wait(&tasks[at], NULL));
  listen_to_errors();
  for (int at = 0; at < count / 2; at++) {
    begin_call(&calls[at], tasks[at], 'n');
    MUST(are_parked(&barrier, (unsigned)at + 1)); /* so they wait in the order of their numbers */
  }
  rest(3500);
  for (int at = count / 2; at < count; at++) DONE(paldwosk_barrier_signal(&tasks[at]));
  for (int at = 0; at < count / 2; at++) end_call(&calls[at], PALDWOSK_DONE, 1);
  hear(said, room);
  DONE(paldwosk_barrier_free(&barrier));
}

/* Task 0 waits for three and a half seconds, and says so after two; then for one, which isn't worth a line. */
static void wait_in_time(int way) {
  static char said[1 << 12];
  paldwosk_barrier barrier;
  paldwosk_task tasks[2] = {PALDWOSK_NO_TASK};
  make_in_turn(&barrier, way, 2, tasks, 2);
  listen_to_errors();
  MUST(paldwosk_barrier_next_for(&tasks[0], 3500, NULL) == PALDWOSK_TIMED_OUT);
  MUST(paldwosk_barrier_next_for(&tasks[0], 1000, NULL) == PALDWOSK_TIMED_OUT);
  hear(said, sizeof said);
  MUST(!strcmp(said, "paldwosk: task 0 waits for more than 2 s; waiting: 0 (phase 0); missing: 1\n"));
  DONE(paldwosk_barrier_leave(&tasks[0]));
  DONE(paldwosk_barrier_free(&barrier));
}

/* A thread that is freed before it is time to say so is woken at once, and says nothing. */
static void wait_for_short(int way) {
  paldwosk_barrier barrier;
  paldwosk_task tasks[2] = {PALDWOSK_NO_TASK};
  call waiter;
  time_t began = time(NULL);
  make_in_turn(&barrier, way, 2, tasks, 2);
  barrier.pauses = 1 << 20; /* as if it had been good to spin for so long */
  begin_call(&waiter, tasks[0], 'n');
  MUST(are_parked(&barrier, 1));
  DONE(paldwosk_barrier_next(&tasks[1], NULL));
  end_call(&waiter, PALDWOSK_DONE, 0);
  MUST(barrier.watch == 60 && time(NULL) - began < 40);
  DONE(paldwosk_barrier_free(&barrier));
}

static void watched(void) {
  static char said[1 << 15];
  char wanted[1000] = "";
  const char *last = "paldwosk: task 1 waits for more than 2 s; waiting: 0 (phase 1), 1 (phase 1); missing: 2, 3\n";
  const char *off[] = {"0", "", "often"};
  for (int at = 0; at < 3; at++) {
    paldwosk_barrier barrier = PALDWOSK_NO_BARRIER;
    setenv("PALDWOSK_WATCH", off[at], 1);
    DONE(paldwosk_barrier_new(&barrier, 2, NULL, 0));
    MUST(barrier.watch == 0);
    DONE(paldwosk_barrier_free(&barrier));
  }
  setenv("PALDWOSK_WATCH", "60", 1);
  for (int way = 0; way < 4; way++) wait_for_short(way);
  setenv("PALDWOSK_WATCH", "2", 1);
  for (int way = 0; way < 2; way++) {
    wait_for_long(way, 4, said, sizeof said);
    MUST(count_of(said, last) == 1 && count_of(said, "\n") == 2);
    MUST(count_of(said, "paldwosk: task 0 waits for more than 2 s; waiting: 0 (phase 1)") == 1);
    if (count_of(said, last) != 1) fprintf(stderr, "%s", said);
    wait_in_time(way);
  }
  wait_for_long(0, 36, said, sizeof said); /* 16 of the 18 of each kind are named */
  size_t length = (size_t)snprintf(wanted, sizeof wanted, "paldwosk: task 17 waits for more than 2 s; waiting:");
  for (int at = 0; at < 16; at++)
    length += (size_t)snprintf(wanted + length, 40, at ? ", %d (phase 1)" : " %d (phase 1)", at);
  length += (size_t)snprintf(wanted + length, 40, " and 2 more; missing:");
  for (int at = 18; at < 34; at++) length += (size_t)snprintf(wanted + length, 40, at > 18 ? ", %d" : " %d", at);
  snprintf(wanted + length, 40, " and 2 more\n");
  MUST(count_of(said, wanted) == 1 && count_of(said, "\n") == 18);
}

/* ---- A barrier that is freed at once */

static void *pass_once(void *given) {
  DONE(paldwosk_barrier_next((paldwosk_task *)given, NULL));
  return NULL;
}

static void yield_long(int number) {
  (void)number;
  rest(1);
}

/* The last of four frees the barrier when its own call has returned; the others may not have come out of theirs yet.
 * They sleep, spin, or are in a yield of 1 ms then. Nobody may touch its memory any more: whoever still does is stopped.
 */
static void freed(int times) {
  const size_t page = 1 << 16;
  paldwosk_barrier *barrier = (paldwosk_barrier *)aligned_alloc(page, page);
  if (!barrier) exit(5);
  yields.instead = yield_long;
  for (int time = 0; time < times; time++) {
    paldwosk_task tasks[4] = {PALDWOSK_NO_TASK};
    pthread_t threads[3];
    party_mode = time % 5 < 2 ? PALDWOSK_SINGLE : PALDWOSK_SIG_WAIT;
    make_party(barrier, tasks, 4);
    DONE(paldwosk_barrier_spin(barrier, time % 3 ? 1 << 22 : 0));
    barrier->pauses = time % 3 == 1 ? 1 << 20 : 0; /* as if it had been good to spin for so long, or not at all */
    for (int at = 0; at < 3; at++) start(&threads[at], pass_once, &tasks[at + 1]);
    if (time % 4 < 2) MUST(are_parked(barrier, 3)); /* else some may come first who haven't been waited for */
    pass_once(&tasks[0]);
    DONE(paldwosk_barrier_free(barrier));
    MUST(barrier->inside == 0);
    memset(barrier, 0xa5, sizeof *barrier); /* ThreadSanitizer tells who isn't done by then, also where it was quick */
    MUST(mprotect(barrier, page, PROT_NONE) == 0);
    for (int at = 0; at < 3; at++) pthread_join(threads[at], NULL);
    MUST(mprotect(barrier, page, PROT_READ | PROT_WRITE) == 0);
  }
  free(barrier);
}

/* ---- A thread that yields */

/* In the first yield of task 0 its own thread makes the call of task 1, which frees it. */
static paldwosk_task last_task;

static void come_at_first(int number) {
  if (number == 1) DONE(paldwosk_barrier_next(&last_task, NULL));
}

static void no_yield(int number) { (void)number; }

/* A party of two threads that don't spin, since that didn't pay before. It has this credit. */
static void make_yielding(paldwosk_barrier *barrier, paldwosk_task *tasks, int32_t credit, void (*instead)(int)) {
  make_party(barrier, tasks, 2);
  last_task = tasks[1];
  barrier->credit = credit;
  yields.count = 0;
  yields.instead = instead;
}

/* A call that a yield ends earns 64. If others took the processor from the test it was long: 200 us cost 800. */
static void yields_until_it_is_freed(void) {
  paldwosk_barrier barrier;
  paldwosk_task tasks[2] = {PALDWOSK_NO_TASK};
  uint64_t phase = 77;
  make_yielding(&barrier, tasks, 1000, come_at_first);
  DONE(paldwosk_barrier_next(&tasks[0], &phase));
  MUST(phase == 0 && yields.count == 1);
  MUST(barrier.credit == 1064 || barrier.credit <= 200);
  DONE(paldwosk_barrier_free(&barrier));
}

/* Whether a thread yields within some seconds, and stops to. */
static int yields_come_to_an_end(void) {
  for (int tried = 0, before = 0; tried < 1000; tried++, rest(20)) {
    int now = __atomic_load_n(&yields.count, __ATOMIC_RELAXED);
    if (now != 0 && now == before) return 1;
    before = now;
  }
  return 0;
}

/* It yields ten times, or fewer if that takes long. */
static void sleeps_in_the_end(void) {
  paldwosk_barrier barrier;
  paldwosk_task tasks[2] = {PALDWOSK_NO_TASK};
  call waiter;
  make_yielding(&barrier, tasks, 1, no_yield);
  begin_call(&waiter, tasks[0], 'n');
  MUST(yields_come_to_an_end());
  DONE(paldwosk_barrier_next(&tasks[1], NULL));
  end_call(&waiter, PALDWOSK_DONE, 0);
  MUST(yields.count >= 1 && yields.count <= 10);
  DONE(paldwosk_barrier_free(&barrier));
}

/* Yields in vain of 1 ms cost 4,000: one is enough, and the next call sleeps at once, which earns 1. */
static void long_yields_are_paid(void) {
  paldwosk_barrier barrier;
  paldwosk_task tasks[2] = {PALDWOSK_NO_TASK};
  call waiter;
  make_yielding(&barrier, tasks, 16, yield_long);
  begin_call(&waiter, tasks[0], 'n');
  MUST(yields_come_to_an_end());
  DONE(paldwosk_barrier_next(&tasks[1], NULL));
  end_call(&waiter, PALDWOSK_DONE, 0);
  int32_t credit = barrier.credit;
  MUST(yields.count == 1 && credit <= 16 - 4000 && credit >= -1000000);
  begin_call(&waiter, tasks[0], 'n');
  MUST(are_parked(&barrier, 1));
  DONE(paldwosk_barrier_next(&tasks[1], NULL));
  end_call(&waiter, PALDWOSK_DONE, 1);
  MUST(yields.count == 1 && barrier.credit == credit + 1);
  DONE(paldwosk_barrier_free(&barrier));
}

/* The credit as it is worked out by hand, and its least and its most. */
static void credit_is_counted(void) {
  paldwosk_barrier barrier;
  paldwosk_task tasks[2] = {PALDWOSK_NO_TASK};
  make_yielding(&barrier, tasks, 100, no_yield);
  paldwoski_learn_of_yields(&barrier, 5, 1);
  MUST(barrier.credit == 80);
  paldwoski_learn_of_yields(&barrier, 199, 0);
  MUST(barrier.credit == 144 && paldwoski_yields(&barrier) == 10);
  paldwoski_learn_of_yields(&barrier, 39, 1);
  MUST(barrier.credit == -12);
  for (int wait = 0; wait < 12; wait++) MUST(paldwoski_yields(&barrier) == 0);
  MUST(barrier.credit == 0 && paldwoski_yields(&barrier) == 0);
  MUST(barrier.credit == 1 && paldwoski_yields(&barrier) == 10);
  paldwoski_learn_of_yields(&barrier, INT64_C(3600000000), 1);
  MUST(barrier.credit == -1000000);
  barrier.credit = 159999;
  paldwoski_learn_of_yields(&barrier, 1, 0);
  MUST(barrier.credit == 160000);
  DONE(paldwosk_barrier_spin(&barrier, 0));
  MUST(paldwoski_yields(&barrier) == 0 && barrier.credit == 160000);
  DONE(paldwosk_barrier_free(&barrier));
}

static void yielding(void) {
  credit_is_counted();
  in_both_modes(yields_until_it_is_freed);
  in_both_modes(sleeps_in_the_end);
  in_both_modes(long_yields_are_paid);
}

/* ---- Forks */

static int is_over;

static void *send_always(void *given) {
  while (!__atomic_load_n(&is_over, __ATOMIC_RELAXED)) DONE(paldwosk_barrier_send((paldwosk_task *)given, 0, 1));
  return NULL;
}

static void in_child(paldwosk_barrier *barrier, paldwosk_task *tasks) {
  paldwosk_barrier own = PALDWOSK_NO_BARRIER;
  paldwosk_task task = PALDWOSK_NO_TASK, child = PALDWOSK_NO_TASK;
  uint64_t phase = 77;
  int64_t value = 77;
  size_t written = 77;
  alarm(20); /* a call that took the lock might wait for ever */
  MUST(paldwosk_barrier_next(&tasks[0], &phase) == PALDWOSK_CLOSED);
  MUST(paldwosk_barrier_signal(&tasks[0]) == PALDWOSK_CLOSED);
  MUST(paldwosk_barrier_wait(&tasks[0], &phase) == PALDWOSK_CLOSED);
  MUST(paldwosk_barrier_single(&tasks[0], 1, nothing, NULL, &phase) == PALDWOSK_CLOSED);
  MUST(paldwosk_barrier_next_for(&tasks[0], 60000, &phase) == PALDWOSK_CLOSED);
  MUST(paldwosk_barrier_send(&tasks[0], 0, 1) == PALDWOSK_CLOSED);
  MUST(paldwosk_barrier_look(&tasks[0], 0, &value) == PALDWOSK_CLOSED);
  MUST(paldwosk_barrier_leave(&tasks[0]) == PALDWOSK_CLOSED);
  MUST(paldwosk_barrier_join(&tasks[0], PALDWOSK_SIG, &child) == PALDWOSK_CLOSED);
  MUST(paldwosk_barrier_make(barrier, PALDWOSK_SIG, &child) == PALDWOSK_CLOSED);
  MUST(paldwosk_barrier_spin(barrier, 1) == PALDWOSK_CLOSED);
  MUST(paldwosk_barrier_missing(barrier, NULL, 0, &written) == PALDWOSK_CLOSED);
  MUST(paldwosk_barrier_trace(barrier, NULL, 0, &written) == PALDWOSK_CLOSED);
  MUST(paldwosk_barrier_free(barrier) == PALDWOSK_CLOSED);
  MUST(paldwosk_barrier_new(barrier, 2, NULL, 0) == PALDWOSK_CLOSED);
  DONE(paldwosk_barrier_new(&own, 2, NULL, 0));
  DONE(paldwosk_barrier_make(&own, PALDWOSK_SIG_WAIT, &task));
  DONE(paldwosk_barrier_next(&task, &phase));
  DONE(paldwosk_barrier_free(&own));
  MUST(phase == 0);
  _exit(faults ? 4 : 0);
}

/* Another thread has the lock about half of the time, and a third waits, while this one forks. */
static void forked(int times) {
  paldwosk_barrier barrier;
  paldwosk_task tasks[3] = {PALDWOSK_NO_TASK};
  pthread_t sender;
  call waiter;
  UNCHECKED(&is_over, sizeof is_over);
  __atomic_store_n(&is_over, 0, __ATOMIC_RELAXED);
  make_party(&barrier, tasks, 3);
  begin_call(&waiter, tasks[2], 'n');
  MUST(are_parked(&barrier, 1));
  start(&sender, send_always, &tasks[1]);
  for (int time = 0; time < times; time++) {
    int status = 0;
    pid_t child = fork();
    if (child < 0) exit(5);
    if (child == 0) in_child(&barrier, tasks);
    MUST(waitpid(child, &status, 0) == child && status == 0);
  }
  __atomic_store_n(&is_over, 1, __ATOMIC_RELAXED);
  pthread_join(sender, NULL);
  DONE(paldwosk_barrier_signal(&tasks[0])); /* in the parent all goes on */
  DONE(paldwosk_barrier_next(&tasks[1], NULL));
  end_call(&waiter, PALDWOSK_DONE, 0);
  DONE(paldwosk_barrier_free(&barrier));
}

static void forked_in_both(int times) {
  forked(times);
  party_mode = PALDWOSK_SIG_WAIT;
  forked(times);
}

/* ---- Signals */

static volatile sig_atomic_t was_signalled;

static void on_signal(int number) { was_signalled = number; }

static void *come_late(void *given) {
  rest(2000);
  MUST(was_signalled == SIGALRM);
  DONE(paldwosk_barrier_next((paldwosk_task *)given, NULL));
  return NULL;
}

/* The signal comes after a second, to the first thread, which waits until the other comes after two. */
static void interrupted(void) {
  paldwosk_barrier barrier;
  paldwosk_task tasks[2] = {PALDWOSK_NO_TASK};
  pthread_t late;
  uint64_t phase = 77;
  make_party(&barrier, tasks, 2);
  was_signalled = 0;
  signal(SIGALRM, on_signal);
  start(&late, come_late, &tasks[1]);
  alarm(1);
  errno = 77;
  DONE(paldwosk_barrier_next(&tasks[0], &phase));
  MUST(errno == 77 && phase == 0);
  pthread_join(late, NULL);
  DONE(paldwosk_barrier_free(&barrier));
}

/* ---- Cancellation */

static int has_returned, has_time;

static void leave(void *given) { DONE(paldwosk_barrier_leave((paldwosk_task *)given)); }

/* It is cancelled outside of the barrier's calls. (ThreadSanitizer loses track of a thread that is cancelled in a
 * call of the system, so it isn't cancelled in its rest.) */
static void *is_cancelled_outside(void *given) {
  int old;
  pthread_cleanup_push(leave, given);
  for (;;) {
    pthread_testcancel();
    pthread_setcancelstate(PTHREAD_CANCEL_DISABLE, &old);
    rest(1);
    pthread_setcancelstate(PTHREAD_CANCEL_ENABLE, &old);
  }
  pthread_cleanup_pop(0);
  return NULL;
}

/* It is cancelled while it waits: the call goes on until it is over. */
static void *is_cancelled_inside(void *given) {
  paldwosk_task *task = (paldwosk_task *)given;
  pthread_cleanup_push(leave, given);
  if (has_time) DONE(paldwosk_barrier_next_for(task, 60000, NULL));
  else DONE(paldwosk_barrier_next(task, NULL));
  __atomic_store_n(&has_returned, 1, __ATOMIC_RELAXED);
  pthread_testcancel();
  MUST(0 && "it goes on after it was cancelled");
  pthread_cleanup_pop(0);
  return NULL;
}

static void cancelled_in(int in_time) {
  paldwosk_barrier barrier;
  paldwosk_task tasks[3] = {PALDWOSK_NO_TASK};
  pthread_t outside, within;
  void *result = NULL;
  has_time = in_time;
  has_returned = 0;
  make_party(&barrier, tasks, 3);
  start(&outside, is_cancelled_outside, &tasks[1]);
  start(&within, is_cancelled_inside, &tasks[2]);
  MUST(are_parked(&barrier, 1));
  pthread_cancel(within);
  rest(100);
  MUST(!__atomic_load_n(&has_returned, __ATOMIC_RELAXED) && are_parked(&barrier, 1));
  DONE(paldwosk_barrier_signal(&tasks[0])); /* so the phase waits for the first thread alone */
  pthread_cancel(outside);
  pthread_join(outside, &result);
  MUST(result == PTHREAD_CANCELED);
  pthread_join(within, &result);
  MUST(result == PTHREAD_CANCELED && __atomic_load_n(&has_returned, __ATOMIC_RELAXED));
  DONE(paldwosk_barrier_wait(&tasks[0], NULL));
  DONE(paldwosk_barrier_next(&tasks[0], NULL)); /* both have left */
  MUST(paldwosk_barrier_leave(&tasks[1]) == PALDWOSK_NOT_REGISTERED);
  MUST(paldwosk_barrier_leave(&tasks[2]) == PALDWOSK_NOT_REGISTERED);
  DONE(paldwosk_barrier_free(&barrier));
}

static void cancelled(void) {
  UNCHECKED(&has_returned, sizeof has_returned);
  cancelled_in(0);
  cancelled_in(1);
  party_mode = PALDWOSK_SIG_WAIT;
  cancelled_in(0);
}

/* ---- Turns of threads */

typedef struct party {
  paldwosk_barrier barrier;
  paldwosk_task tasks[THREADS];
  int threads, phases, are_hasty, are_even; /* all end each turn by one call */
  int64_t arrived[THREADS]; /* atomic: how many phases each thread has come to the end of */
  int64_t written[THREADS]; /* not atomic: the barrier alone orders who writes and who reads it */
  int64_t ran;              /* not atomic either */
} party;

typedef struct member {
  party *of;
  int index;
  pthread_t thread;
} member;

static party the_party;
static member members[THREADS];

static void run_members(void *(*body)(void *)) {
  UNCHECKED(the_party.arrived, sizeof the_party.arrived);
  for (int at = 0; at < the_party.threads; at++) {
    members[at].of = &the_party;
    members[at].index = at;
    start(&members[at].thread, body, &members[at]);
  }
  for (int at = 0; at < the_party.threads; at++) pthread_join(members[at].thread, NULL);
}

/* The same with times that are often too short: 0 to 2 ms. Some wait without a time in the end. */
static void end_turn_in_haste(const paldwosk_task *task, int by_two, uint64_t *phase) {
  paldwosk_answer answer = by_two ? paldwosk_barrier_signal_for(task, 1) : paldwosk_barrier_try_next(task, phase);
  if (by_two) MUST(answer == PALDWOSK_DONE); /* no bound holds it back */
  if (by_two) answer = paldwosk_barrier_try_wait(task, phase);
  for (uint32_t tries = 0; answer == PALDWOSK_TIMED_OUT; tries++) {
    MUST(paldwosk_barrier_signal(task) == PALDWOSK_NOT_NOW);
    if (by_two) answer = paldwosk_barrier_wait_for(task, tries % 3, phase);
    else if (tries == 2) answer = paldwosk_barrier_next(task, phase);
    else answer = paldwosk_barrier_next_for(task, tries % 3, phase);
  }
  DONE(answer);
}

/* Some end their turn by one call, and some by two. */
static void end_turn(const paldwosk_task *task, int by_two, uint64_t *phase) {
  if (!by_two) DONE(paldwosk_barrier_next(task, phase));
  else {
    DONE(paldwosk_barrier_signal(task));
    DONE(paldwosk_barrier_wait(task, phase));
  }
}

/* Thread t sends 7t + p in phase p: in all 7 T (T - 1) / 2 + T p. */
static void *take_turns(void *given) {
  member *me = (member *)given;
  party *all = me->of;
  int64_t threads = all->threads;
  paldwosk_task *task = &all->tasks[me->index];
  for (int64_t at = 0; at < all->phases; at++) {
    uint64_t phase = 77;
    int64_t sum = 0;
    DONE(paldwosk_barrier_send(task, 0, (int32_t)(7 * me->index + at)));
    if (at % 2 == 0) all->written[me->index] = at;
    __atomic_store_n(&all->arrived[me->index], at + 1, __ATOMIC_RELEASE);
    int by_two = (at + me->index) % 3 == 0 && !all->are_even;
    if (all->are_hasty && (at + me->index) % 4) end_turn_in_haste(task, by_two, &phase);
    else end_turn(task, by_two, &phase);
    MUST(phase == (uint64_t)at);
    for (int other = 0; other < threads; other++) {
      MUST(__atomic_load_n(&all->arrived[other], __ATOMIC_ACQUIRE) > at);
      if (at % 2 == 0) MUST(all->written[other] == at);
    }
    DONE(paldwosk_barrier_look(task, 0, &sum));
    MUST(sum == 7 * threads * (threads - 1) / 2 + threads * at);
  }
  DONE(paldwosk_barrier_leave(task));
  return NULL;
}

static void stress(int threads, int phases, uint32_t most, int are_hasty) {
  the_party.are_hasty = are_hasty;
  the_party.threads = threads;
  the_party.phases = phases;
  make_party(&the_party.barrier, the_party.tasks, threads);
  DONE(paldwosk_barrier_spin(&the_party.barrier, most));
  run_members(take_turns);
  MUST(the_party.barrier.tasks == 0);
  if (the_party.are_even) MUST(changes_of(&the_party.barrier) == 2 * HAS_ROUNDS); /* fast once, until the last has left */
  DONE(paldwosk_barrier_free(&the_party.barrier));
}

/* All phases are made at a fast barrier: no call is made that would make it slow. */
static void rounds(int threads, int phases, uint32_t most) {
  party_mode = PALDWOSK_SIG_WAIT;
  the_party.are_even = 1;
  stress(threads, phases, most, 0);
}

/* Nearly all turns are ended by signals and waits, so the barrier is slow and fast in turn. */
static void uneven(int threads, int phases, uint32_t most) {
  party_mode = PALDWOSK_SIG_WAIT;
  stress(threads, phases, most, 0);
  stress(threads, phases, most, 1);
}

/* ---- Singles */

static void count_run(void *given) { ++*(int64_t *)given; }

/* In phase 2r all propose single r; in each third of these phases the odd ones don't, and are held all the same. In
 * phase 2r + 1 nobody does: so nobody writes `ran` while others look at it. */
static void *run_singles(void *given) {
  member *me = (member *)given;
  party *all = me->of;
  paldwosk_task *task = &all->tasks[me->index];
  for (int64_t round = 0; round < all->phases; round++) {
    uint64_t phase = 77;
    if (round % 3 == 0 && me->index % 2) DONE(paldwosk_barrier_next(task, &phase));
    else DONE(paldwosk_barrier_single(task, (uint32_t)round, count_run, &all->ran, &phase));
    MUST(phase == (uint64_t)(2 * round) && all->ran == round + 1);
    DONE(paldwosk_barrier_next(task, &phase));
    MUST(phase == (uint64_t)(2 * round + 1));
  }
  DONE(paldwosk_barrier_leave(task));
  return NULL;
}

static void singles(int threads, int phases) {
  the_party.threads = threads;
  the_party.phases = phases;
  make_party(&the_party.barrier, the_party.tasks, threads);
  run_members(run_singles);
  MUST(the_party.ran == phases);
  DONE(paldwosk_barrier_free(&the_party.barrier));
}

/* ---- A queue that its bound fixes */

typedef struct queue {
  paldwosk_barrier barrier;
  paldwosk_task producer, consumers[2];
  int64_t items, bound;
  int64_t *slots;   /* bound + 2 of them, not atomic */
  int64_t taken[2]; /* atomic: of each consumer */
  int64_t sums[2];
} queue;

static queue the_queue;

/* The signal of item n returns when each consumer has ended the wait for item n - bound. By its own count that may be
 * one less, since it counts after its call. */
static void *produce(void *given) {
  queue *it = (queue *)given;
  for (int64_t item = 0; item < it->items; item++) {
    it->slots[item % (it->bound + 2)] = 3 * item + 1;
    DONE(paldwosk_barrier_signal(&it->producer));
    for (int at = 0; at < 2; at++)
      MUST(__atomic_load_n(&it->taken[at], __ATOMIC_RELAXED) >= item - it->bound);
    DONE(paldwosk_barrier_wait(&it->producer, NULL)); /* who only signals waits for nobody */
  }
  DONE(paldwosk_barrier_leave(&it->producer));
  return NULL;
}

static void consume(queue *it, int which, int is_slow) {
  for (int64_t item = 0; item < it->items; item++) {
    uint64_t phase = 77;
    DONE(paldwosk_barrier_wait(&it->consumers[which], &phase));
    MUST(phase == (uint64_t)item && it->slots[item % (it->bound + 2)] == 3 * item + 1);
    it->sums[which] += it->slots[item % (it->bound + 2)];
    __atomic_store_n(&it->taken[which], item + 1, __ATOMIC_RELAXED);
    if (is_slow && item % 64 == 0) rest(1);
  }
  DONE(paldwosk_barrier_leave(&it->consumers[which]));
}

static void *consume_quickly(void *given) {
  consume((queue *)given, 0, 0);
  return NULL;
}

static void bounded(int items, int bound) {
  queue *it = &the_queue;
  pthread_t producer, consumer;
  it->items = items;
  it->bound = bound;
  it->slots = (int64_t *)calloc((size_t)bound + 2, sizeof *it->slots);
  if (!it->slots) exit(5);
  UNCHECKED(it->taken, sizeof it->taken);
  DONE(paldwosk_barrier_new(&it->barrier, (uint32_t)bound, NULL, 0));
  DONE(paldwosk_barrier_make(&it->barrier, PALDWOSK_SIG_WAIT, &it->producer));
  paldwosk_task root = it->producer;
  DONE(paldwosk_barrier_join(&root, PALDWOSK_SIG, &it->producer));
  for (int at = 0; at < 2; at++) DONE(paldwosk_barrier_join(&root, PALDWOSK_WAIT, &it->consumers[at]));
  DONE(paldwosk_barrier_leave(&root));
  start(&producer, produce, it);
  start(&consumer, consume_quickly, it);
  consume(it, 1, 1);
  pthread_join(producer, NULL);
  pthread_join(consumer, NULL);
  for (int at = 0; at < 2; at++) MUST(it->sums[at] == 3 * it->items * (it->items - 1) / 2 + it->items);
  DONE(paldwosk_barrier_free(&it->barrier));
  free(it->slots);
}

/* ---- Traces */

/* The trace so far; the caller frees it. It may become shorter between two calls: a task that has left meanwhile ends in
 * fewer bytes than one that is still there. */
static char *trace_of(paldwosk_barrier *barrier, size_t *length) {
  size_t least = 0, written = 0;
  for (;;) { /* others may add events between the two calls */
    MUST(paldwosk_barrier_trace(barrier, NULL, 0, &least) == PALDWOSK_SHORT);
    char *text = (char *)malloc(least + 1);
    if (!text) exit(5);
    text[0] = text[least] = '#';
    paldwosk_answer answer = paldwosk_barrier_trace(barrier, text, least - 1, &written);
    MUST(answer == PALDWOSK_SHORT ? text[0] == '#' : answer == PALDWOSK_DONE && written < least);
    answer = paldwosk_barrier_trace(barrier, text, least, &written);
    MUST(text[least] == '#' && (answer == PALDWOSK_DONE || answer == PALDWOSK_SHORT));
    *length = written;
    if (answer != PALDWOSK_SHORT) return text;
    MUST(written > least);
    free(text);
  }
}

/* Replays the trace so far, and leaves its report, or its refusal. */
static void replay(paldwosk_barrier *barrier, char *report, size_t room) {
  size_t length = 0, written = 0;
  char *text = trace_of(barrier, &length);
  paldwosk_status status = paldwosk_replay(text, length, report, room - 1, &written);
  MUST(status == PALDWOSK_STATUS_DONE);
  report[status == PALDWOSK_STATUS_SHORT ? 0 : written] = 0;
  if (status != PALDWOSK_STATUS_DONE) fprintf(stderr, "waiting: %s%.*s\n", report, 100000, text);
  free(text);
}

static void *take_traced_turns(void *given) {
  member *me = (member *)given;
  for (int64_t at = 0; at < me->of->phases; at++) DONE(paldwosk_barrier_next(&me->of->tasks[me->index], NULL));
  DONE(paldwosk_barrier_leave(&me->of->tasks[me->index]));
  return NULL;
}

/* What a replay has to say. The first events are the making, a joining for each thread and the leaving of the first
 * task. Then each phase has a signal of each thread and then a pass of each, and phases don't overlap: when the last
 * has signalled all pass, before the lock is given back. So it is clear what stands within the limit. Those that are
 * still there at the limit end by a refused act. */
static void write_wanted(char *wanted, size_t room, int64_t threads, int64_t phases, int is_long) {
  int64_t left = PALDWOSKI_TRACE_EVENTS - (threads + 2), whole = left / (2 * threads), more = left % (2 * threads);
  if (whole >= phases) whole = phases, more = 0;
  int64_t signals = threads * whole + (more < threads ? more : threads);
  int64_t passes = threads * whole + (more < threads ? 0 : more - threads);
  int at = snprintf(wanted, room, "phaser 0 phases %" PRId64 "\n", whole + (more > 0));
  for (int task = 0; task <= threads; task++)
    at += snprintf(wanted + at, room - (size_t)at, "task %d %s\n", task,
                   task && is_long ? "refused 21 NoFinish" : "ended");
  at += snprintf(wanted + at, room - (size_t)at, "finish 0 tasks %" PRId64 "\n", threads);
  at += snprintf(wanted + at, room - (size_t)at, "totals registered %" PRId64, threads + 1);
  at += snprintf(wanted + at, room - (size_t)at, " signals %" PRId64 " passes %" PRId64, signals, passes);
  at += snprintf(wanted + at, room - (size_t)at, " drops %" PRId64, threads + 1);
  snprintf(wanted + at, room - (size_t)at, " sends 0 up 0 down 0\n");
}

static void traced(int threads, int phases) {
  static char report[1 << 16], wanted[1 << 16];
  paldwosk_task root = PALDWOSK_NO_TASK;
  int is_long = 2 * (int64_t)threads * phases + 2 * threads + 2 > PALDWOSKI_TRACE_EVENTS;
  the_party.threads = threads;
  the_party.phases = phases;
  DONE(paldwosk_barrier_new_traced(&the_party.barrier, 2, NULL, 0));
  replay(&the_party.barrier, report, sizeof report);
  MUST(!strcmp(report, "task 0 ended\nfinish 0 tasks 0\n"
                       "totals registered 0 signals 0 passes 0 drops 0 sends 0 up 0 down 0\n"));
  DONE(paldwosk_barrier_make(&the_party.barrier, PALDWOSK_SIG_WAIT, &root));
  for (int at = 0; at < threads; at++) DONE(paldwosk_barrier_join(&root, PALDWOSK_SIG_WAIT, &the_party.tasks[at]));
  DONE(paldwosk_barrier_leave(&root));
  run_members(take_traced_turns);
  MUST(paldwosk_barrier_trace_ended(&the_party.barrier) == is_long);
  replay(&the_party.barrier, report, sizeof report);
  write_wanted(wanted, sizeof wanted, threads, phases, is_long);
  MUST(!strcmp(report, wanted));
  if (strcmp(report, wanted)) fprintf(stderr, "%s%s", report, wanted);
  DONE(paldwosk_barrier_free(&the_party.barrier));
}

/* ---- What a trace tells */

static const char *replayed(paldwosk_barrier *barrier) {
  static char report[1 << 18];
  replay(barrier, report, sizeof report);
  return report;
}

static int tells(paldwosk_barrier *barrier, const char *words) {
  int is_there = strstr(replayed(barrier), words) != NULL;
  if (!is_there) fprintf(stderr, "waiting: not \"%s\" but\n%s", words, replayed(barrier));
  return is_there;
}

static void make_traced(paldwosk_barrier *barrier, uint32_t bound, paldwosk_task *root) {
  const paldwosk_operator sum = PALDWOSK_SUM;
  memset(barrier, 0, sizeof *barrier);
  DONE(paldwosk_barrier_new_traced(barrier, bound, &sum, 1));
  DONE(paldwosk_barrier_make(barrier, PALDWOSK_SINGLE, root));
}

static void look_in_statement(void *given) {
  MUST(tells((paldwosk_barrier *)given, "totals registered 4 signals 3 passes 1 drops 4 sends 0 up 0 down 0\n"));
}

static void *run_single(void *given) {
  paldwosk_task *task = (paldwosk_task *)given;
  DONE(paldwosk_barrier_single(task, 5, look_in_statement, task->barrier, NULL));
  return NULL;
}

/* One has proposed a single, one is in a `next`, one only waits, and the root is about nothing. In a trace all end:
 * the second as if it had only signalled, and the first once its statement is done, so that one pass is told which
 * hasn't been made yet. */
static void told_midway(void) {
  paldwosk_barrier barrier;
  paldwosk_task root = PALDWOSK_NO_TASK, tasks[3] = {PALDWOSK_NO_TASK};
  pthread_t single;
  call next, waits;
  make_traced(&barrier, 2, &root);
  DONE(paldwosk_barrier_join(&root, PALDWOSK_SINGLE, &tasks[0]));
  DONE(paldwosk_barrier_join(&root, PALDWOSK_SIG_WAIT, &tasks[1]));
  DONE(paldwosk_barrier_join(&root, PALDWOSK_WAIT, &tasks[2]));
  start(&single, run_single, &tasks[0]);
  MUST(are_parked(&barrier, 1));
  begin_call(&next, tasks[1], 'n');
  MUST(are_parked(&barrier, 2));
  begin_call(&waits, tasks[2], 'w');
  MUST(are_parked(&barrier, 3));
  MUST(tells(&barrier, "phaser 0 phases 1\n"));
  MUST(tells(&barrier, "totals registered 4 signals 2 passes 1 drops 4 sends 0 up 0 down 0\n"));
  DONE(paldwosk_barrier_next(&root, NULL)); /* so the first runs its statement, and asks for the trace there */
  pthread_join(single, NULL);
  end_call(&next, PALDWOSK_DONE, 0);
  end_call(&waits, PALDWOSK_DONE, 0);
  MUST(tells(&barrier, "totals registered 4 signals 3 passes 4 drops 4 sends 0 up 0 down 0\n"));
  MUST(!paldwosk_barrier_trace_ended(&barrier));
  DONE(paldwosk_barrier_free(&barrier));
}

static int has_word(paldwosk_barrier *barrier, const char *word) {
  size_t length = 0;
  char *text = trace_of(barrier, &length);
  text[length] = 0;
  int is_there = strstr(text, word) != NULL;
  free(text);
  return is_there;
}

/* A second thread sends and joins for a task that waits: then its `next` is told as two acts. */
static void told_in_parts(void) {
  paldwosk_barrier barrier;
  paldwosk_task root = PALDWOSK_NO_TASK, child = PALDWOSK_NO_TASK, late = PALDWOSK_NO_TASK;
  call next;
  make_traced(&barrier, 2, &root);
  DONE(paldwosk_barrier_join(&root, PALDWOSK_SIG_WAIT, &child));
  begin_call(&next, child, 'n');
  MUST(are_parked(&barrier, 1));
  DONE(paldwosk_barrier_send(&child, 0, -9));
  DONE(paldwosk_barrier_join(&child, PALDWOSK_SIG, &late));
  DONE(paldwosk_barrier_next(&root, NULL));
  end_call(&next, PALDWOSK_DONE, 0);
  MUST(tells(&barrier, "totals registered 3 signals 2 passes 2 drops 3 sends 1 up 0 down 9\n"));
  MUST(has_word(&barrier, "\"t\",1,\"begin\",[\"signal\"]]") && has_word(&barrier, "\"t\",1,\"begin\",[\"wait\"]]"));
  MUST(has_word(&barrier, "\"t\",0,\"begin\",[\"next\"]]"));
  MUST(!paldwosk_barrier_trace_ended(&barrier));
  begin_call(&next, child, 'n'); /* and one that is made to leave while it waits */
  MUST(are_parked(&barrier, 1));
  DONE(paldwosk_barrier_leave(&child));
  end_call(&next, PALDWOSK_NOT_REGISTERED, 77);
  MUST(tells(&barrier, "totals registered 3 signals 3 passes 2 drops 3 sends 1 up 0 down 9\n"));
  MUST(!paldwosk_barrier_trace_ended(&barrier));
  DONE(paldwosk_barrier_free(&barrier));
}

static void send_in_statement(void *given) { DONE(paldwosk_barrier_send((paldwosk_task *)given, 0, 1)); }

/* No trace tells what a task sends in the statement of its single. Up to there it is told. */
static void told_to_a_statement(void) {
  paldwosk_barrier barrier;
  paldwosk_task root = PALDWOSK_NO_TASK;
  make_traced(&barrier, 2, &root);
  DONE(paldwosk_barrier_next(&root, NULL));
  DONE(paldwosk_barrier_single(&root, 1, send_in_statement, &root, NULL));
  DONE(paldwosk_barrier_next(&root, NULL));
  MUST(paldwosk_barrier_trace_ended(&barrier));
  MUST(tells(&barrier, "totals registered 1 signals 2 passes 2 drops 1 sends 0 up 0 down 0\n"));
  DONE(paldwosk_barrier_free(&barrier));
}

/* Of task 4,096 and all that comes after no trace tells. */
static void told_to_a_number(void) {
  paldwosk_barrier barrier;
  paldwosk_task root = PALDWOSK_NO_TASK, child = PALDWOSK_NO_TASK;
  make_traced(&barrier, 2, &root);
  for (int at = 1; at < 4096; at++) {
    DONE(paldwosk_barrier_join(&root, PALDWOSK_SIG, &child));
    DONE(paldwosk_barrier_leave(&child));
  }
  MUST(!paldwosk_barrier_trace_ended(&barrier));
  DONE(paldwosk_barrier_join(&root, PALDWOSK_SIG, &child));
  MUST(paldwosk_barrier_trace_ended(&barrier) && child.number == 4096);
  DONE(paldwosk_barrier_leave(&child));
  MUST(tells(&barrier, "finish 0 tasks 4095\n"));
  DONE(paldwosk_barrier_free(&barrier));
}

/* All kinds of events, 31 of them. Task 0 is the root, and leaves before the others do. */
static void make_all_events(paldwosk_barrier *barrier, paldwosk_task root) {
  paldwosk_task proposes = PALDWOSK_NO_TASK, next = PALDWOSK_NO_TASK;
  paldwosk_task signals = PALDWOSK_NO_TASK, waits = PALDWOSK_NO_TASK;
  call first, second, third;
  int64_t value = 77;
  DONE(paldwosk_barrier_join(&root, PALDWOSK_SINGLE, &proposes));
  DONE(paldwosk_barrier_join(&root, PALDWOSK_SIG_WAIT, &next));
  DONE(paldwosk_barrier_join(&root, PALDWOSK_SIG, &signals));
  DONE(paldwosk_barrier_join(&root, PALDWOSK_WAIT, &waits));
  DONE(paldwosk_barrier_send(&root, 0, INT32_MAX));
  DONE(paldwosk_barrier_next(&signals, NULL));
  begin_call(&first, proposes, 7);
  MUST(are_parked(barrier, 1));
  begin_call(&second, root, 7);
  MUST(are_parked(barrier, 2));
  DONE(paldwosk_barrier_next(&next, NULL));
  end_call(&first, PALDWOSK_DONE, 0);
  end_call(&second, PALDWOSK_DONE, 0);
  begin_call(&third, signals, 'n'); /* the bound is 1, and there is one who waits and hasn't passed phase 0 */
  MUST(are_parked(barrier, 1));
  DONE(paldwosk_barrier_wait(&waits, NULL));
  end_call(&third, PALDWOSK_DONE, 1);
  DONE(paldwosk_barrier_look(&root, 0, &value));
  MUST(value == INT32_MAX);
  MUST(paldwosk_barrier_look(&root, 1, &value) == PALDWOSK_NOTHING);
  DONE(paldwosk_barrier_signal(&root));
  DONE(paldwosk_barrier_leave(&root));
  DONE(paldwosk_barrier_signal(&proposes));
  DONE(paldwosk_barrier_next(&next, NULL));
  DONE(paldwosk_barrier_wait(&proposes, NULL));
  DONE(paldwosk_barrier_leave(&waits));
  DONE(paldwosk_barrier_leave(&next));
  DONE(paldwosk_barrier_leave(&signals));
  DONE(paldwosk_barrier_leave(&proposes));
}

/* Whatever the event is at which a trace has to end, it is one of a run. */
static void told_to_each_event(void) {
  uint32_t events = 1000;
  for (uint32_t room = 0; room <= events; room++) {
    paldwosk_barrier barrier = PALDWOSK_NO_BARRIER;
    const paldwosk_operator operators[2] = {PALDWOSK_SUM, PALDWOSK_LEAST};
    paldwosk_task root = PALDWOSK_NO_TASK;
    DONE(paldwosk_barrier_new_traced(&barrier, 1, operators, 2));
    if (events < 1000) barrier.trace->room = room;
    DONE(paldwosk_barrier_make(&barrier, PALDWOSK_SINGLE, &root));
    make_all_events(&barrier, root);
    if (events == 1000) events = barrier.trace->count;
    MUST(paldwosk_barrier_trace_ended(&barrier) == (barrier.trace->room < events));
    MUST(replayed(&barrier)[0]);
    DONE(paldwosk_barrier_free(&barrier));
  }
  MUST(events == 31);
}

/* Task 0 waits, task 1 has left, task 2 hasn't signalled. The ends of 0 and 2 are the text's alone, and it says so. */
static void told_of_a_hang(void) {
  paldwosk_barrier barrier;
  paldwosk_task root = PALDWOSK_NO_TASK, child = PALDWOSK_NO_TASK, late = PALDWOSK_NO_TASK;
  make_traced(&barrier, 2, &root);
  DONE(paldwosk_barrier_join(&root, PALDWOSK_SIG_WAIT, &child));
  DONE(paldwosk_barrier_join(&root, PALDWOSK_SIG_WAIT, &late));
  DONE(paldwosk_barrier_leave(&child));
  MUST(paldwosk_barrier_try_next(&root, NULL) == PALDWOSK_TIMED_OUT);
  MUST(tells(&barrier, "task 0 refused 21 NoFinish\ntask 1 ended\ntask 2 refused 21 NoFinish\nfinish 0 tasks 2\n"));
  MUST(tells(&barrier, "totals registered 3 signals 1 passes 0 drops 3 sends 0 up 0 down 0\n"));
  MUST(has_word(&barrier, "\"t\",2,\"refuse\",[\"shut\"],21]"));
  DONE(paldwosk_barrier_leave(&late));
  MUST(tells(&barrier, "task 0 refused 21 NoFinish\ntask 1 ended\ntask 2 ended\n")); /* it passed, and is still there */
  DONE(paldwosk_barrier_leave(&root));
  MUST(tells(&barrier, "task 0 ended\ntask 1 ended\ntask 2 ended\n") && !has_word(&barrier, "refuse"));
  DONE(paldwosk_barrier_free(&barrier));
}

/* What is told of calls whose time is over. Task 1 sends while its `next` goes on, so that is told as two acts. The
 * sends 7 and 5 are of the phases 0 and 1. */
static void told_in_time(void) {
  paldwosk_barrier barrier;
  paldwosk_task root = PALDWOSK_NO_TASK, child = PALDWOSK_NO_TASK;
  int64_t value = 77;
  make_traced(&barrier, 2, &root);
  DONE(paldwosk_barrier_join(&root, PALDWOSK_SINGLE, &child));
  DONE(paldwosk_barrier_send(&child, 0, 7));
  MUST(paldwosk_barrier_next_for(&child, 5, NULL) == PALDWOSK_TIMED_OUT);
  DONE(paldwosk_barrier_send(&child, 0, 5));
  DONE(paldwosk_barrier_next(&root, NULL));
  DONE(paldwosk_barrier_look(&child, 0, &value)); /* it has passed, though it doesn't know yet */
  MUST(value == 7);
  DONE(paldwosk_barrier_try_next(&child, NULL));
  MUST(paldwosk_barrier_try_single(&child, 3, nothing, NULL, NULL) == PALDWOSK_TIMED_OUT);
  MUST(tells(&barrier, "totals registered 2 signals 3 passes 3 drops 2 sends 2 up 12 down 0\n"));
  MUST(paldwosk_barrier_try_next(&root, NULL) == PALDWOSK_TIMED_OUT); /* the single isn't done */
  DONE(paldwosk_barrier_single(&child, 3, nothing, NULL, NULL));
  DONE(paldwosk_barrier_try_next(&root, NULL));
  DONE(paldwosk_barrier_leave(&root));
  DONE(paldwosk_barrier_leave(&child));
  MUST(tells(&barrier, "phaser 0 phases 2\nphaser 0 phase 0 acc 0 value 7\nphaser 0 phase 1 acc 0 value 5\n"));
  MUST(tells(&barrier, "task 0 ended\ntask 1 ended\nfinish 0 tasks 1\n"
                       "totals registered 2 signals 4 passes 4 drops 2 sends 2 up 12 down 0\n"));
  MUST(has_word(&barrier, "\"t\",1,\"begin\",[\"signal\"]]") && has_word(&barrier, "\"t\",1,\"begin\",[\"wait\"]]"));
  MUST(!paldwosk_barrier_trace_ended(&barrier));
  DONE(paldwosk_barrier_free(&barrier));
}

static void told(void) {
  told_of_a_hang();
  told_in_time();
  told_midway();
  told_in_parts();
  told_to_a_statement();
  told_to_a_number();
  told_to_each_event();
}

/* ---- Calls with a time */

static int64_t milliseconds(void) {
  struct timespec now = paldwoski_now();
  return (int64_t)now.tv_sec * 1000 + now.tv_nsec / 1000000;
}

/* The signal is made once: a task that comes back waits for what it has begun. Sent are 3 and 4 in phase 0, and 5 after
 * task 0 has signalled that, so in phase 1. */
static void next_runs_out(int way) {
  paldwosk_barrier barrier;
  paldwosk_task tasks[2] = {PALDWOSK_NO_TASK};
  uint64_t phase = 77;
  int64_t value = 77, began = milliseconds();
  make_in_turn(&barrier, way, 2, tasks, 2);
  DONE(paldwosk_barrier_send(&tasks[0], 0, 3));
  errno = 77;
  MUST(paldwosk_barrier_next_for(&tasks[0], 100, &phase) == PALDWOSK_TIMED_OUT);
  int64_t took = milliseconds() - began;
  MUST(took >= 100 && took < 20000);
  MUST(are_parked(&barrier, 1) && barrier.inside == 0 && misses(&barrier, "1"));
  MUST(paldwosk_barrier_next_for(&tasks[0], 1, &phase) == PALDWOSK_TIMED_OUT);
  MUST(paldwosk_barrier_try_next(&tasks[0], &phase) == PALDWOSK_TIMED_OUT);
  MUST(phase == 77 && errno == 77 && are_parked(&barrier, 1) && barrier.inside == 0);
  DONE(paldwosk_barrier_send(&tasks[0], 0, 5));
  DONE(paldwosk_barrier_send(&tasks[1], 0, 4));
  DONE(paldwosk_barrier_try_next(&tasks[1], &phase));
  MUST(phase == 0 && are_parked(&barrier, 0));
  phase = 77;
  DONE(paldwosk_barrier_try_next(&tasks[0], &phase));
  DONE(paldwosk_barrier_look(&tasks[0], 0, &value));
  MUST(phase == 0 && value == 7);
  MUST(paldwosk_barrier_try_next(&tasks[1], NULL) == PALDWOSK_TIMED_OUT);
  DONE(paldwosk_barrier_next_for(&tasks[0], 60000, &phase));
  DONE(paldwosk_barrier_next(&tasks[1], NULL));
  DONE(paldwosk_barrier_look(&tasks[0], 0, &value));
  MUST(phase == 1 && value == 5);
  DONE(paldwosk_barrier_free(&barrier));
}

/* Whatever is not the same call is refused, before its answer has come and then. */
static void refuses_other_calls(const paldwosk_task *task, int is_next) {
  if (!is_next) MUST(paldwosk_barrier_next(task, NULL) == PALDWOSK_NOT_NOW);
  if (!is_next) MUST(paldwosk_barrier_next_for(task, 1, NULL) == PALDWOSK_NOT_NOW);
  if (!is_next) MUST(paldwosk_barrier_try_next(task, NULL) == PALDWOSK_NOT_NOW);
  if (is_next) MUST(paldwosk_barrier_wait(task, NULL) == PALDWOSK_NOT_NOW);
  if (is_next) MUST(paldwosk_barrier_wait_for(task, 1, NULL) == PALDWOSK_NOT_NOW);
  if (is_next) MUST(paldwosk_barrier_try_wait(task, NULL) == PALDWOSK_NOT_NOW);
  MUST(paldwosk_barrier_signal(task) == PALDWOSK_NOT_NOW);
  MUST(paldwosk_barrier_signal_for(task, 1) == PALDWOSK_NOT_NOW);
  MUST(paldwosk_barrier_try_signal(task) == PALDWOSK_NOT_NOW);
  MUST(paldwosk_barrier_single(task, 1, nothing, NULL, NULL) == PALDWOSK_NOT_NOW);
  MUST(paldwosk_barrier_single_for(task, 1, 1, nothing, NULL, NULL) == PALDWOSK_NOT_NOW);
  MUST(paldwosk_barrier_try_single(task, 1, nothing, NULL, NULL) == PALDWOSK_NOT_NOW);
}

static void others_are_refused(int way) {
  paldwosk_barrier barrier;
  paldwosk_task tasks[2] = {PALDWOSK_NO_TASK};
  for (int is_next = 0; is_next < 2; is_next++) {
    make_in_turn(&barrier, way, 2, tasks, 2);
    if (is_next) MUST(paldwosk_barrier_try_next(&tasks[0], NULL) == PALDWOSK_TIMED_OUT);
    else DONE(paldwosk_barrier_signal(&tasks[0]));
    if (!is_next) MUST(paldwosk_barrier_try_wait(&tasks[0], NULL) == PALDWOSK_TIMED_OUT);
    refuses_other_calls(&tasks[0], is_next);
    MUST(paldwosk_barrier_free(&barrier) == PALDWOSK_NOT_NOW);
    DONE(paldwosk_barrier_next(&tasks[1], NULL));
    refuses_other_calls(&tasks[0], is_next);
    DONE(is_next ? paldwosk_barrier_next(&tasks[0], NULL) : paldwosk_barrier_wait(&tasks[0], NULL));
    MUST(paldwosk_barrier_try_wait(&tasks[0], NULL) == PALDWOSK_NOT_SIGNALLED);
    DONE(paldwosk_barrier_free(&barrier)); /* and with an answer that nobody has taken: */
    make_in_turn(&barrier, way, 2, tasks, 2);
    MUST(paldwosk_barrier_try_next(&tasks[0], NULL) == PALDWOSK_TIMED_OUT);
    DONE(paldwosk_barrier_next(&tasks[1], NULL));
    DONE(paldwosk_barrier_free(&barrier));
  }
}

/* One party never waits. */
static void tries_succeed_at_once(int way) {
  paldwosk_barrier barrier;
  paldwosk_task task = PALDWOSK_NO_TASK;
  uint64_t phase = 77;
  int64_t runs = 0, began = milliseconds();
  make_in_turn(&barrier, way, 2, &task, 1);
  DONE(paldwosk_barrier_try_next(&task, &phase));
  MUST(phase == 0);
  DONE(paldwosk_barrier_next_for(&task, 60000, &phase));
  MUST(phase == 1);
  DONE(paldwosk_barrier_try_signal(&task));
  DONE(paldwosk_barrier_try_wait(&task, &phase));
  MUST(phase == 2);
  DONE(paldwosk_barrier_signal_for(&task, 60000));
  DONE(paldwosk_barrier_wait_for(&task, 60000, &phase));
  MUST(phase == 3);
  DONE(paldwosk_barrier_try_single(&task, 4, count_run, &runs, &phase));
  MUST(phase == 4 && runs == 1);
  DONE(paldwosk_barrier_single_for(&task, 4, 60000, count_run, &runs, &phase));
  MUST(phase == 5 && runs == 2 && milliseconds() - began < 20000 && !barrier.overdue);
  DONE(paldwosk_barrier_free(&barrier));
}

/* Task 0 tries and doesn't come back yet. The others pass phase 0 all the same, and wait for it in phase 1. */
static void others_go_on(int way) {
  paldwosk_barrier barrier;
  paldwosk_task tasks[3] = {PALDWOSK_NO_TASK};
  call first, second;
  uint64_t phase = 77;
  make_in_turn(&barrier, way, 2, tasks, 3);
  begin_call(&first, tasks[1], 'n');
  MUST(are_parked(&barrier, 1));
  MUST(paldwosk_barrier_next_for(&tasks[0], 5, NULL) == PALDWOSK_TIMED_OUT);
  MUST(are_parked(&barrier, 2));
  begin_call(&second, tasks[2], 'N');
  end_call(&first, PALDWOSK_DONE, 0);
  end_call(&second, PALDWOSK_DONE, 0);
  begin_call(&first, tasks[1], 'N');
  begin_call(&second, tasks[2], 'n');
  MUST(are_parked(&barrier, 2) && misses(&barrier, "0"));
  DONE(paldwosk_barrier_try_next(&tasks[0], &phase));
  MUST(phase == 0 && are_parked(&barrier, 2));
  DONE(paldwosk_barrier_try_next(&tasks[0], &phase));
  MUST(phase == 1);
  end_call(&first, PALDWOSK_DONE, 1);
  end_call(&second, PALDWOSK_DONE, 1);
  DONE(paldwosk_barrier_free(&barrier));
}

/* A task that comes back sleeps until it is woken, with a time or without. */
static void who_comes_back_is_woken(int way) {
  paldwosk_barrier barrier;
  paldwosk_task tasks[2] = {PALDWOSK_NO_TASK};
  call waiter;
  for (int kind = 0; kind < 4; kind++) {
    make_in_turn(&barrier, way, 2, tasks, 2);
    DONE(paldwosk_barrier_spin(&barrier, kind == 2 ? 1 << 20 : 0));
    if (kind < 2) DONE(paldwosk_barrier_signal(&tasks[0]));
    MUST((kind < 2 ? paldwosk_barrier_try_wait(&tasks[0], NULL) : paldwosk_barrier_try_next(&tasks[0], NULL)) ==
         PALDWOSK_TIMED_OUT);
    begin_call(&waiter, tasks[0], "wWnN"[kind]);
    rest(20);
    MUST(are_parked(&barrier, 1));
    DONE(paldwosk_barrier_signal(&tasks[1]));
    end_call(&waiter, PALDWOSK_DONE, 0);
    DONE(paldwosk_barrier_wait_for(&tasks[1], 0, NULL));
    DONE(paldwosk_barrier_free(&barrier));
  }
}

/* The bound is 1: the signal of phase 1 is held until task 2 has waited for phase 0. It is made though nobody comes
 * back for it, so that task 2 passes phase 1. While it is held the 9 that is sent counts for phase 1. */
static void bound_runs_out(int way) {
  paldwosk_barrier barrier;
  paldwosk_task root = PALDWOSK_NO_TASK, signals = PALDWOSK_NO_TASK, waits = PALDWOSK_NO_TASK;
  uint64_t phase = 77;
  int64_t value = 77;
  make_in_turn(&barrier, way, 1, &root, 1);
  DONE(paldwosk_barrier_join(&root, PALDWOSK_SIG, &signals));
  DONE(paldwosk_barrier_join(&root, PALDWOSK_WAIT, &waits));
  DONE(paldwosk_barrier_leave(&root));
  DONE(paldwosk_barrier_next(&signals, NULL));
  MUST(paldwosk_barrier_signal_for(&signals, 5) == PALDWOSK_TIMED_OUT && misses(&barrier, "2"));
  MUST(paldwosk_barrier_try_signal(&signals) == PALDWOSK_TIMED_OUT);
  MUST(paldwosk_barrier_try_wait(&signals, NULL) == PALDWOSK_NOT_NOW);
  DONE(paldwosk_barrier_send(&signals, 0, 9));
  DONE(paldwosk_barrier_try_wait(&waits, NULL));
  DONE(paldwosk_barrier_try_wait(&waits, &phase));
  DONE(paldwosk_barrier_look(&waits, 0, &value));
  MUST(phase == 1 && value == 9);
  DONE(paldwosk_barrier_try_signal(&signals));
  DONE(paldwosk_barrier_try_wait(&signals, &phase));
  MUST(phase == 1);
  DONE(paldwosk_barrier_next(&signals, NULL)); /* of phase 2; now the same for a next */
  MUST(paldwosk_barrier_next_for(&signals, 5, &phase) == PALDWOSK_TIMED_OUT && misses(&barrier, "2"));
  MUST(paldwosk_barrier_try_wait(&waits, NULL) == PALDWOSK_DONE && misses(&barrier, ""));
  DONE(paldwosk_barrier_try_wait(&waits, &phase));
  MUST(phase == 3);
  MUST(paldwosk_barrier_try_wait(&waits, NULL) == PALDWOSK_TIMED_OUT);
  DONE(paldwosk_barrier_next(&signals, &phase));
  MUST(phase == 3 && misses(&barrier, "1"));
  DONE(paldwosk_barrier_leave(&signals));
  DONE(paldwosk_barrier_try_wait(&waits, &phase));
  MUST(phase == 4);
  DONE(paldwosk_barrier_free(&barrier));
}

/* Whether somebody has claimed a single, in time. */
static int is_claimed(paldwosk_barrier *barrier) {
  for (int tried = 0; tried < 20000; tried++, rest(1)) {
    pthread_mutex_lock(&barrier->lock);
    uint32_t coming = barrier->coming;
    pthread_mutex_unlock(&barrier->lock);
    if (coming) return 1;
  }
  return 0;
}

/* Task 0 proposes and goes. Once task 1 has signalled it is task 0 that runs the statement, when it comes back. */
static void single_runs_out(int way) {
  paldwosk_barrier barrier;
  paldwosk_task tasks[2] = {PALDWOSK_NO_TASK};
  call next;
  uint64_t phase = 77;
  int64_t runs = 0;
  make_in_turn(&barrier, way, 2, tasks, 2);
  MUST(paldwosk_barrier_single_for(&tasks[0], 7, 5, count_run, &runs, &phase) == PALDWOSK_TIMED_OUT);
  MUST(paldwosk_barrier_try_single(&tasks[0], 8, count_run, &runs, &phase) == PALDWOSK_NOT_NOW);
  MUST(paldwosk_barrier_leave(&tasks[0]) == PALDWOSK_NOT_NOW && misses(&barrier, "1"));
  begin_call(&next, tasks[1], 'N');
  MUST(is_claimed(&barrier) && misses(&barrier, "0")); /* the call of task 0 is answered: it claims the single */
  MUST(paldwosk_barrier_wait(&tasks[0], NULL) == PALDWOSK_NOT_NOW);
  MUST(paldwosk_barrier_leave(&tasks[0]) == PALDWOSK_NOT_NOW && paldwosk_barrier_free(&barrier) == PALDWOSK_NOT_NOW);
  MUST(runs == 0 && phase == 77);
  DONE(paldwosk_barrier_try_single(&tasks[0], 7, count_run, &runs, &phase));
  MUST(runs == 1 && phase == 0);
  end_call(&next, PALDWOSK_DONE, 0);
  DONE(paldwosk_barrier_leave(&tasks[0]));
  DONE(paldwosk_barrier_free(&barrier));
}

/* Both are held by the bound, with two numbers. The second is refused while nobody waits, and learns it later. */
static void refusal_comes_later(int way) {
  paldwosk_barrier barrier;
  paldwosk_task tasks[2] = {PALDWOSK_NO_TASK}, waits = PALDWOSK_NO_TASK;
  int64_t runs = 0;
  make_in_turn(&barrier, way, 1, tasks, 1);
  DONE(paldwosk_barrier_join(&tasks[0], PALDWOSK_WAIT, &waits));
  DONE(paldwosk_barrier_next(&tasks[0], NULL));
  DONE(paldwosk_barrier_join(&tasks[0], PALDWOSK_SINGLE, &tasks[1]));
  MUST(paldwosk_barrier_try_single(&tasks[0], 5, count_run, &runs, NULL) == PALDWOSK_TIMED_OUT);
  MUST(paldwosk_barrier_try_single(&tasks[1], 6, count_run, &runs, NULL) == PALDWOSK_TIMED_OUT);
  DONE(paldwosk_barrier_wait(&waits, NULL));
  MUST(paldwosk_barrier_single(&tasks[1], 6, count_run, &runs, NULL) == PALDWOSK_SINGLE_MISMATCH && runs == 0);
  MUST(paldwosk_barrier_try_next(&tasks[1], NULL) == PALDWOSK_TIMED_OUT);
  DONE(paldwosk_barrier_single(&tasks[0], 5, count_run, &runs, NULL));
  DONE(paldwosk_barrier_try_next(&tasks[1], NULL));
  MUST(runs == 1);
  DONE(paldwosk_barrier_free(&barrier));
}

/* It leaves while its call goes on, and after its answer has come, again and again; and all tasks' calls go on at
 * once. */
static void who_ran_out_leaves(int way) {
  paldwosk_barrier barrier;
  paldwosk_task tasks[THREADS] = {PALDWOSK_NO_TASK}, child = PALDWOSK_NO_TASK;
  call waiter;
  make_in_turn(&barrier, way, 2, tasks, 2);
  for (int time = 0; time < 600; time++) {
    DONE(paldwosk_barrier_join(&tasks[0], PALDWOSK_SIG_WAIT, &child));
    MUST(paldwosk_barrier_try_next(&child, NULL) == PALDWOSK_TIMED_OUT);
    if (time % 2) DONE(paldwosk_barrier_signal(&tasks[0]));
    if (time % 2) DONE(paldwosk_barrier_next(&tasks[1], NULL));
    if (time % 2) DONE(paldwosk_barrier_wait(&tasks[0], NULL));
    DONE(paldwosk_barrier_leave(&child));
    MUST(paldwosk_barrier_try_next(&child, NULL) == PALDWOSK_NOT_REGISTERED && !barrier.overdue && !barrier.first);
  }
  begin_call(&waiter, tasks[0], 'N');
  MUST(are_parked(&barrier, 1));
  DONE(paldwosk_barrier_leave(&tasks[0]));
  end_call(&waiter, PALDWOSK_NOT_REGISTERED, 77);
  DONE(paldwosk_barrier_leave(&tasks[1]));
  DONE(paldwosk_barrier_free(&barrier));
  make_in_turn(&barrier, way, 2, tasks, THREADS);
  for (int at = 1; at < THREADS; at++) MUST(paldwosk_barrier_try_next(&tasks[at], NULL) == PALDWOSK_TIMED_OUT);
  DONE(paldwosk_barrier_try_next(&tasks[0], NULL));
  for (int at = THREADS; --at;) DONE(paldwosk_barrier_try_next(&tasks[at], NULL));
  MUST(!barrier.overdue && barrier.inside == 0);
  DONE(paldwosk_barrier_free(&barrier));
}

/* A try neither yields nor sleeps. A call with a time yields first, as one without does. */
static void tries_do_not_yield(void) {
  paldwosk_barrier barrier;
  paldwosk_task tasks[2] = {PALDWOSK_NO_TASK};
  make_yielding(&barrier, tasks, 1000, no_yield);
  MUST(paldwosk_barrier_try_next(&tasks[0], NULL) == PALDWOSK_TIMED_OUT);
  MUST(paldwosk_barrier_try_next(&tasks[0], NULL) == PALDWOSK_TIMED_OUT);
  MUST(yields.count == 0 && barrier.credit == 1000);
  MUST(paldwosk_barrier_next_for(&tasks[0], 5, NULL) == PALDWOSK_TIMED_OUT);
  MUST(yields.count >= 1 && yields.count <= 10);
  DONE(paldwosk_barrier_leave(&tasks[0]));
  DONE(paldwosk_barrier_free(&barrier));
  yields.instead = NULL;
}

static void timed(void) {
  tries_do_not_yield();
  for (int way = 0; way < 4; way++) {
    next_runs_out(way);
    others_are_refused(way);
    tries_succeed_at_once(way);
    others_go_on(way);
    who_comes_back_is_woken(way);
    bound_runs_out(way);
    single_runs_out(way);
    refusal_comes_later(way);
    who_ran_out_leaves(way);
  }
}

/* ---- A crowd. Each thread counts for itself what it did, and so knows which phase it passes next. */

typedef struct visitor {
  paldwosk_task task;
  paldwosk_mode mode;
  int64_t signals;     /* atomic: counted before the call */
  int64_t made, passes; /* signals that were made, and passes; of its own thread alone */
  int is_there;        /* atomic: it is registered, and hasn't begun to leave */
  uint64_t luck;
  pthread_t thread;
} visitor;

enum { VISITORS = 200 };
enum { ANY_CROWD, EVEN_CROWD, CHANGING_CROWD }; /* in an even one all tasks end each turn by one call */

static struct crowd {
  paldwosk_barrier barrier;
  int is_traced, most;
  int kind;
  int count; /* atomic: of visitors so far; from here on others may read what a visitor has */
  visitor all[VISITORS];
  int64_t sums[PHASES_KEPT], least[PHASES_KEPT], runs[PHASES_KEPT]; /* atomic: of each phase */
} crowd;

static uint32_t drawn(visitor *me, uint32_t below) {
  me->luck ^= me->luck << 13;
  me->luck ^= me->luck >> 7;
  me->luck ^= me->luck << 17;
  return (uint32_t)(me->luck >> 33) % below;
}

static int can_signal(const visitor *it) { return it->mode != PALDWOSK_WAIT; }
static int can_wait(const visitor *it) { return it->mode != PALDWOSK_SIG; }

static void *visit(void *given);

static void bring_child(visitor *me) {
  static const paldwosk_mode within[4][4] = {
      {PALDWOSK_SIG, PALDWOSK_SIG, PALDWOSK_SIG, PALDWOSK_SIG},
      {PALDWOSK_WAIT, PALDWOSK_WAIT, PALDWOSK_WAIT, PALDWOSK_WAIT},
      {PALDWOSK_SIG, PALDWOSK_WAIT, PALDWOSK_SIG_WAIT, PALDWOSK_SIG_WAIT},
      {PALDWOSK_SIG, PALDWOSK_WAIT, PALDWOSK_SIG_WAIT, PALDWOSK_SINGLE}};
  int index = __atomic_load_n(&crowd.count, __ATOMIC_RELAXED);
  if (index >= crowd.most) return;
  index = __atomic_fetch_add(&crowd.count, 1, __ATOMIC_RELAXED);
  if (index >= crowd.most) return;
  visitor *child = &crowd.all[index];
  child->mode = within[me->mode][drawn(me, 4)];
  if (crowd.kind == EVEN_CROWD) child->mode = PALDWOSK_SIG_WAIT;
  if (crowd.kind == CHANGING_CROWD && can_signal(me) && can_wait(me) && drawn(me, 16)) child->mode = PALDWOSK_SIG_WAIT;
  child->luck = me->luck + (uint64_t)index * 0x9e3779b97f4a7c15u;
  child->passes = me->passes;
  child->made = can_signal(child) && can_signal(me) ? me->made : me->passes;
  __atomic_store_n(&child->signals, child->made, __ATOMIC_RELAXED);
  DONE(paldwosk_barrier_join(&me->task, child->mode, &child->task));
  __atomic_store_n(&child->is_there, 1, __ATOMIC_RELEASE);
  start(&child->thread, visit, child);
}

/* The phase is over: all who signal have signalled it, the fold has what was sent for it, and its single was run
 * once. */
static void look_round(visitor *me, uint64_t phase, int has_proposed) {
  int64_t value = 77, least = __atomic_load_n(&crowd.least[phase], __ATOMIC_RELAXED);
  int count = __atomic_load_n(&crowd.count, __ATOMIC_ACQUIRE);
  for (int at = 0; at < count && at < crowd.most; at++)
    if (__atomic_load_n(&crowd.all[at].is_there, __ATOMIC_ACQUIRE) && can_signal(&crowd.all[at]))
      MUST(__atomic_load_n(&crowd.all[at].signals, __ATOMIC_RELAXED) > (int64_t)phase);
  int64_t runs = __atomic_load_n(&crowd.runs[phase], __ATOMIC_RELAXED);
  MUST(has_proposed ? runs == 1 : runs <= 1);
  if (drawn(me, 2)) return;
  DONE(paldwosk_barrier_look(&me->task, 0, &value));
  MUST(value == __atomic_load_n(&crowd.sums[phase], __ATOMIC_RELAXED));
  paldwosk_answer answer = paldwosk_barrier_look(&me->task, 1, &value);
  MUST(least == INT64_MAX ? answer == PALDWOSK_NOTHING : answer == PALDWOSK_DONE && value == least);
}

static void has_passed(visitor *me, uint64_t phase, int has_proposed) {
  MUST(phase == (uint64_t)me->passes);
  me->passes++;
  if (can_wait(me)) look_round(me, phase, has_proposed);
}

/* It sends for the phase that it hasn't signalled yet. */
static void send_value(visitor *me) {
  int32_t value = (int32_t)drawn(me, 2001) - 1000;
  int64_t *least = &crowd.least[me->made], old = __atomic_load_n(least, __ATOMIC_RELAXED);
  while (value < old && !__atomic_compare_exchange_n(least, &old, value, 0, __ATOMIC_RELAXED, __ATOMIC_RELAXED))
    ;
  __atomic_fetch_add(&crowd.sums[me->made], value, __ATOMIC_RELAXED);
  DONE(paldwosk_barrier_send(&me->task, 0, value));
  DONE(paldwosk_barrier_send(&me->task, 1, value));
}

/* helgrind complains of what glibc does in a wait that times out. */
#ifdef WITHOUT_TIMES
enum { CROWD_HAS_TIMES = 0 };
#else
enum { CROWD_HAS_TIMES = 1 };
#endif

/* A next or a wait. Each third has a time, which is often too short: then it comes back. */
static void pass_in_crowd(visitor *me, int is_next, uint64_t *phase) {
  paldwosk_answer answer = PALDWOSK_TIMED_OUT;
  int has_time = drawn(me, 3) == 0 && CROWD_HAS_TIMES;
  while (has_time && answer == PALDWOSK_TIMED_OUT) {
    uint32_t time = drawn(me, 3);
    if (is_next) answer = paldwosk_barrier_next_for(&me->task, time, phase);
    else answer = paldwosk_barrier_wait_for(&me->task, time, phase);
  }
  if (has_time) DONE(answer);
  else if (is_next) DONE(paldwosk_barrier_next(&me->task, phase));
  else DONE(paldwosk_barrier_wait(&me->task, phase));
}

static void run_in_crowd(void *given) { __atomic_fetch_add((int64_t *)given, 1, __ATOMIC_RELAXED); }

/* There are two numbers: a task that comes with another than its phase's first is refused, and goes on without. */
static void propose(visitor *me) {
  uint64_t phase = 77;
  uint32_t number = 1 + (drawn(me, 8) == 0);
  int64_t *runs = &crowd.runs[me->passes];
  paldwosk_answer answer = PALDWOSK_TIMED_OUT;
  for (int has_time = drawn(me, 3) == 0 && CROWD_HAS_TIMES; has_time && answer == PALDWOSK_TIMED_OUT;)
    answer = paldwosk_barrier_single_for(&me->task, number, drawn(me, 2), run_in_crowd, runs, &phase);
  if (answer == PALDWOSK_TIMED_OUT) answer = paldwosk_barrier_single(&me->task, number, run_in_crowd, runs, &phase);
  MUST(answer == PALDWOSK_DONE || answer == PALDWOSK_SINGLE_MISMATCH);
  int is_refused = answer == PALDWOSK_SINGLE_MISMATCH;
  if (is_refused) DONE(paldwosk_barrier_next(&me->task, &phase));
  me->made++;
  has_passed(me, phase, !is_refused);
}

/* At an even crowd a next without a time, and at a changing one nearly always. */
static int is_plain(visitor *me) {
  return crowd.kind == EVEN_CROWD || (crowd.kind == CHANGING_CROWD && drawn(me, 128) != 0);
}

static void end_its_turn_plainly(visitor *me) {
  uint64_t phase = 77;
  __atomic_fetch_add(&me->signals, 1, __ATOMIC_RELAXED);
  DONE(paldwosk_barrier_next(&me->task, &phase));
  me->made++;
  has_passed(me, phase, 0);
}

static void end_its_turn(visitor *me) {
  uint64_t phase = 77;
  uint32_t how = drawn(me, 3);
  if (can_signal(me) && me->made == me->passes && is_plain(me)) {
    end_its_turn_plainly(me);
    return;
  }
  if (can_signal(me) && me->made == me->passes) {
    __atomic_fetch_add(&me->signals, 1, __ATOMIC_RELAXED);
    if (me->mode == PALDWOSK_SINGLE && how == 0) {
      propose(me);
      return;
    }
    if (how == 1) DONE(paldwosk_barrier_signal(&me->task));
    else pass_in_crowd(me, 1, &phase);
    me->made++;
    if (how == 1) return; /* it is ahead now, and passes in a later act */
  } else pass_in_crowd(me, 0, &phase);
  has_passed(me, phase, 0);
}

/* Some leave while a call of theirs goes on. */
static void leave_crowd(visitor *me) {
  int is_ahead = can_signal(me) && me->made > me->passes;
  if (drawn(me, 3) == 0 && can_signal(me) && !is_ahead && !is_plain(me)) {
    __atomic_fetch_add(&me->signals, 1, __ATOMIC_RELAXED);
    paldwosk_answer answer = paldwosk_barrier_try_next(&me->task, NULL);
    MUST(answer == PALDWOSK_DONE || answer == PALDWOSK_TIMED_OUT);
  }
  __atomic_store_n(&me->is_there, 0, __ATOMIC_RELEASE);
  DONE(paldwosk_barrier_leave(&me->task));
}

/* The header has noted of it what it has counted itself. If others wait, somebody keeps them waiting. At a fast barrier
 * its seat says where it stands. */
static void see_itself(visitor *me) {
  uint64_t missing[THREADS];
  paldwosk_barrier *barrier = &crowd.barrier;
  DONE(paldwoski_enter(barrier));
  if (crowd.kind != EVEN_CROWD && drawn(me, crowd.kind == CHANGING_CROWD ? 200 : 4) == 0) paldwoski_go_slow(barrier);
  const struct paldwoski_member *member = paldwoski_member_of(barrier, me->task.number);
  MUST(member->is_there && member->mode == (unsigned)me->mode);
  MUST(member->is_ahead == (unsigned)(can_signal(me) && me->made > me->passes));
  if (is_fast(barrier)) MUST(phase_at_seat(&me->task) == (uint64_t)me->passes);
  else MUST(member->passes == (uint64_t)me->passes);
  if (!is_fast(barrier)) MUST((paldwoski_find_missing(barrier, missing) > 0) == (barrier->first != NULL));
  paldwoski_unlock(barrier);
}

static void *visit(void *given) {
  static __thread char report[1 << 16];
  visitor *me = (visitor *)given;
  for (uint32_t acts = 1 + drawn(me, 80); acts; acts--) {
    uint32_t act = drawn(me, 100);
    see_itself(me);
    if (act < 12) bring_child(me);
    else if (act < 35 && can_signal(me)) send_value(me);
    else if (act == 99 && crowd.is_traced && drawn(me, 8) == 0) replay(&crowd.barrier, report, sizeof report);
    else end_its_turn(me);
  }
  leave_crowd(me);
  return NULL;
}

static int have_changed; /* how many changing crowds were slow, and fast again */

/* An even crowd is fast from the first task on, until the last has left. */
static void see_changes(void) {
  uint64_t changes = changes_of(&crowd.barrier);
  if (crowd.kind == EVEN_CROWD) MUST(changes == 2 * HAS_ROUNDS);
  have_changed += changes > 2;
}

static void meet(uint64_t luck, int most, int kind) {
  static char report[1 << 18];
  static const paldwosk_operator operators[2] = {PALDWOSK_SUM, PALDWOSK_LEAST};
  memset(&crowd, 0, sizeof crowd);
  UNCHECKED(&crowd.count, sizeof crowd - offsetof(struct crowd, count));
  for (int at = 0; at < PHASES_KEPT; at++) crowd.least[at] = INT64_MAX;
  visitor *first = &crowd.all[0];
  crowd.most = most < VISITORS ? most : VISITORS;
  first->luck = luck;
  crowd.is_traced = drawn(first, 2) == 0 && kind == ANY_CROWD;
  crowd.kind = kind;
  uint32_t bound = 1 + drawn(first, 4);
  if (crowd.is_traced) DONE(paldwosk_barrier_new_traced(&crowd.barrier, bound, operators, 2));
  else DONE(paldwosk_barrier_new(&crowd.barrier, bound, operators, 2));
  if (drawn(first, 3) == 0) DONE(paldwosk_barrier_spin(&crowd.barrier, 0));
  first->mode = drawn(first, 4) && kind == ANY_CROWD ? PALDWOSK_SINGLE : PALDWOSK_SIG_WAIT;
  if (kind == CHANGING_CROWD && drawn(first, 4) == 0) first->mode = PALDWOSK_SINGLE;
  DONE(paldwosk_barrier_make(&crowd.barrier, first->mode, &first->task));
  crowd.count = first->is_there = 1;
  start(&first->thread, visit, first);
  for (int at = 0; at < __atomic_load_n(&crowd.count, __ATOMIC_RELAXED) && at < crowd.most; at++)
    pthread_join(crowd.all[at].thread, NULL);
  if (crowd.is_traced) replay(&crowd.barrier, report, sizeof report);
  see_changes();
  DONE(paldwosk_barrier_free(&crowd.barrier));
}

static void meet_for(int seconds, uint64_t seed, int most, int kind) {
  time_t until = time(NULL) + seconds;
  for (uint64_t round = 1; !faults && (round == 1 || time(NULL) < until); round++)
    meet((seed + 1) * 0x9e3779b97f4a7c15u + round * 0xbf58476d1ce4e5b9u, most, kind);
  if (kind == CHANGING_CROWD && HAS_ROUNDS && !faults) MUST(have_changed > 0);
}

/* ---- What holds of other people's barriers. Each says whose tests have it, in words; the code is ours. */

/* java.util.concurrent.Phaser: an arrival doesn't wait, and the phase isn't over by it alone. */
static void arriving_does_not_wait(void) {
  paldwosk_barrier barrier;
  paldwosk_task tasks[3] = {PALDWOSK_NO_TASK};
  call waiter;
  make_party(&barrier, tasks, 3);
  begin_call(&waiter, tasks[2], 'n');
  DONE(paldwosk_barrier_signal(&tasks[0]));
  rest(20);
  MUST(are_parked(&barrier, 1));
  DONE(paldwosk_barrier_signal(&tasks[1]));
  end_call(&waiter, PALDWOSK_DONE, 0);
  DONE(paldwosk_barrier_free(&barrier));
}

/* glibc, Python and java.util.concurrent: where there is one party it never waits. */
static void one_party_never_waits(void) {
  paldwosk_barrier barrier;
  paldwosk_task task = PALDWOSK_NO_TASK;
  uint64_t phase = 77;
  make_party(&barrier, &task, 1);
  for (uint64_t at = 0; at < 10; at++) {
    DONE(at % 2 ? paldwosk_barrier_single(&task, 1, nothing, NULL, &phase) : paldwosk_barrier_next(&task, &phase));
    MUST(phase == at);
  }
  DONE(paldwosk_barrier_free(&barrier));
}

/* java.util.concurrent.Phaser: who is registered later takes part from the phase that is current. Here: where its
 * parent stands, and if that has arrived it needn't arrive either. */
static void late_party_begins_at_its_parent(void) {
  paldwosk_barrier barrier;
  paldwosk_task tasks[1] = {PALDWOSK_NO_TASK}, late = PALDWOSK_NO_TASK, later = PALDWOSK_NO_TASK;
  uint64_t phase = 77;
  make_party(&barrier, tasks, 1);
  DONE(paldwosk_barrier_next(&tasks[0], NULL));
  DONE(paldwosk_barrier_next(&tasks[0], NULL));
  DONE(paldwosk_barrier_join(&tasks[0], PALDWOSK_SIG_WAIT, &late));
  DONE(paldwosk_barrier_signal(&tasks[0]));
  DONE(paldwosk_barrier_join(&tasks[0], PALDWOSK_SIG_WAIT, &later));
  DONE(paldwosk_barrier_next(&late, &phase));
  MUST(phase == 2);
  MUST(paldwosk_barrier_signal(&later) == PALDWOSK_ALREADY_SIGNALLED);
  DONE(paldwosk_barrier_wait(&later, &phase));
  MUST(phase == 2);
  DONE(paldwosk_barrier_free(&barrier));
}

/* java.util.concurrent.Phaser: where the last who hasn't arrived deregisters, the others advance. Python has them
 * broken in this case (abort); here they go on. */
static void leaving_lets_others_go_on(void) {
  paldwosk_barrier barrier;
  paldwosk_task tasks[3] = {PALDWOSK_NO_TASK};
  call first, second;
  make_party(&barrier, tasks, 3);
  begin_call(&first, tasks[0], 'n');
  begin_call(&second, tasks[1], 'n');
  MUST(are_parked(&barrier, 2));
  DONE(paldwosk_barrier_leave(&tasks[2]));
  end_call(&first, PALDWOSK_DONE, 0);
  end_call(&second, PALDWOSK_DONE, 0);
  begin_call(&first, tasks[0], 'n'); /* and in the next phase two are enough */
  DONE(paldwosk_barrier_next(&tasks[1], NULL));
  end_call(&first, PALDWOSK_DONE, 1);
  DONE(paldwosk_barrier_free(&barrier));
}

/* java.util.concurrent.Phaser: to await a phase that is over doesn't wait. */
static void phase_that_is_over_is_not_awaited(void) {
  paldwosk_barrier barrier;
  paldwosk_task task = PALDWOSK_NO_TASK, waits = PALDWOSK_NO_TASK;
  uint64_t phase = 77;
  make_party(&barrier, &task, 1);
  DONE(paldwosk_barrier_join(&task, PALDWOSK_WAIT, &waits));
  DONE(paldwosk_barrier_next(&task, NULL));
  DONE(paldwosk_barrier_next(&task, NULL));
  for (uint64_t at = 0; at < 2; at++) {
    DONE(paldwosk_barrier_wait(&waits, &phase));
    MUST(phase == at);
  }
  DONE(paldwosk_barrier_free(&barrier));
}

/* java.util.concurrent.Phaser: who isn't registered can't arrive, and that changes nothing for the others. */
static void stranger_can_not_arrive(void) {
  paldwosk_barrier barrier;
  paldwosk_task tasks[2] = {PALDWOSK_NO_TASK};
  call waiter;
  make_party(&barrier, tasks, 2);
  paldwosk_task stranger = {&barrier, 2, 0};
  begin_call(&waiter, tasks[0], 'n');
  MUST(are_parked(&barrier, 1));
  MUST(paldwosk_barrier_signal(&stranger) == PALDWOSK_NOT_REGISTERED);
  MUST(paldwosk_barrier_leave(&stranger) == PALDWOSK_NOT_REGISTERED);
  rest(20);
  MUST(are_parked(&barrier, 1));
  DONE(paldwosk_barrier_next(&tasks[1], NULL));
  end_call(&waiter, PALDWOSK_DONE, 0);
  DONE(paldwosk_barrier_free(&barrier));
}

/* Python's Barrier: its action is run by one of the parties, before any of them is let go. glibc: in each round
 * exactly one thread is told that it is the serial one. Here that is who runs the single. */
static void slow_statement(void *given) {
  rest(20);
  ++*(int *)given;
}

static void *see_statement(void *given) {
  static int runs; /* not atomic: the barrier orders it */
  paldwosk_task *task = (paldwosk_task *)given;
  for (int round = 0; round < 5; round++) {
    DONE(paldwosk_barrier_single(task, 1, slow_statement, &runs, NULL));
    MUST(runs == round + 1);
    DONE(paldwosk_barrier_next(task, NULL));
  }
  return NULL;
}

static void action_comes_before_all_go(void) {
  paldwosk_barrier barrier;
  paldwosk_task tasks[5] = {PALDWOSK_NO_TASK};
  pthread_t threads[5];
  make_party(&barrier, tasks, 5);
  for (int at = 0; at < 5; at++) start(&threads[at], see_statement, &tasks[at]);
  for (int at = 0; at < 5; at++) pthread_join(threads[at], NULL);
  DONE(paldwosk_barrier_free(&barrier));
}

/* glibc: many threads, many rounds, at one barrier; and two barriers in turn, of which one is freed and made anew by
 * the one that was chosen, while others may still be on their way out of it. */
static struct again {
  paldwosk_barrier first, second;
  paldwosk_task at_first[8], at_second[8];
  int index[8];
} again;

static void make_again(void *unused) {
  (void)unused;
  DONE(paldwosk_barrier_free(&again.first));
  memset(&again.first, 0x5a, sizeof again.first);
  make_party(&again.first, again.at_first, 8);
}

static void *meet_again(void *given) {
  int me = *(int *)given;
  for (int round = 0; round < 200; round++) {
    DONE(paldwosk_barrier_next(&again.at_first[me], NULL));
    DONE(paldwosk_barrier_single(&again.at_second[me], 1, make_again, NULL, NULL));
  }
  return NULL;
}

static void barrier_is_made_anew(void) {
  pthread_t threads[8];
  make_party(&again.first, again.at_first, 8);
  make_party(&again.second, again.at_second, 8);
  for (int at = 0; at < 8; at++) {
    again.index[at] = at;
    start(&threads[at], meet_again, &again.index[at]);
  }
  for (int at = 0; at < 8; at++) pthread_join(threads[at], NULL);
  DONE(paldwosk_barrier_free(&again.first));
  DONE(paldwosk_barrier_free(&again.second));
}

static void facts(void) {
  one_party_never_waits();
  in_both_modes(arriving_does_not_wait);
  in_both_modes(late_party_begins_at_its_parent);
  in_both_modes(leaving_lets_others_go_on);
  in_both_modes(phase_that_is_over_is_not_awaited);
  in_both_modes(stranger_can_not_arrive);
  action_comes_before_all_go();
  /* helgrind takes what another thread's unlocking does in a mutex for a race with the mutex's end. */
  if (!IS_UNDER_VALGRIND) barrier_is_made_anew();
}

/* ---- Between fast and slow. Each body begins at a fast barrier of three tasks, of which some have come. */

static struct trio {
  paldwosk_barrier barrier;
  paldwosk_task tasks[3];
  call calls[3];
  uint64_t phase; /* in which all stand */
} trio;

static void end_phase_of_trio(void) {
  for (int at = 0; at < 3; at++) begin_call(&trio.calls[at], trio.tasks[at], 'n');
  for (int at = 0; at < 3; at++) end_call(&trio.calls[at], PALDWOSK_DONE, trio.phase);
  trio.phase++;
}

/* It goes through phases until it is fast again, which takes 64 at most. */
static void speed_trio_up(void) {
  for (int done = 0; HAS_ROUNDS && !is_fast(&trio.barrier) && done < 70; done++) end_phase_of_trio();
  MUST(is_fast(&trio.barrier) == HAS_ROUNDS);
  uint64_t before = changes_of(&trio.barrier);
  end_phase_of_trio();
  MUST(is_fast_since(&trio.barrier, before));
}

/* So many of its tasks have come. */
static void begin_trio(int come) {
  speed_trio_up();
  for (int at = 0; at < come; at++) begin_call(&trio.calls[at], trio.tasks[at], 'n');
  MUST(are_parked(&trio.barrier, (unsigned)come));
  MUST(is_fast(&trio.barrier) == HAS_ROUNDS);
}

/* Those that had come are let go. */
static void end_trio(int come) {
  for (int at = 0; at < come; at++) end_call(&trio.calls[at], PALDWOSK_DONE, trio.phase);
  trio.phase++;
}

static void changed_by_signal(void) {
  uint64_t phase = 77;
  begin_trio(2);
  DONE(paldwosk_barrier_signal(&trio.tasks[2]));
  end_trio(2);
  MUST(paldwosk_barrier_signal(&trio.tasks[2]) == PALDWOSK_ALREADY_SIGNALLED);
  DONE(paldwosk_barrier_wait(&trio.tasks[2], &phase));
  MUST(phase == trio.phase - 1);
  begin_trio(1);
  DONE(paldwosk_barrier_signal(&trio.tasks[1]));
  DONE(paldwosk_barrier_next(&trio.tasks[2], &phase));
  end_trio(1);
  MUST(phase == trio.phase - 1);
  DONE(paldwosk_barrier_wait(&trio.tasks[1], &phase));
  MUST(phase == trio.phase - 1);
}

/* What is refused changes nothing: the others are still let go by the last. */
static void changed_by_refusals(void) {
  begin_trio(2);
  MUST(paldwosk_barrier_wait(&trio.tasks[2], NULL) == PALDWOSK_NOT_SIGNALLED);
  MUST(paldwosk_barrier_single(&trio.tasks[2], 1, nothing, NULL, NULL) == PALDWOSK_NO_SINGLE);
  MUST(paldwosk_barrier_try_wait(&trio.tasks[2], NULL) == PALDWOSK_NOT_SIGNALLED);
  MUST(paldwosk_barrier_free(&trio.barrier) == PALDWOSK_NOT_NOW);
  MUST(are_parked(&trio.barrier, 2));
  DONE(paldwosk_barrier_next(&trio.tasks[2], NULL));
  end_trio(2);
  begin_trio(2);
  MUST(paldwosk_barrier_free(&trio.barrier) == PALDWOSK_NOT_NOW);
  MUST(are_parked(&trio.barrier, 2));
  DONE(paldwosk_barrier_next(&trio.tasks[2], NULL));
  end_trio(2);
}

static void changed_by_time(void) {
  uint64_t phase = 77;
  begin_trio(1);
  MUST(paldwosk_barrier_next_for(&trio.tasks[2], 5, NULL) == PALDWOSK_TIMED_OUT);
  MUST(paldwosk_barrier_try_next(&trio.tasks[2], NULL) == PALDWOSK_TIMED_OUT);
  DONE(paldwosk_barrier_next(&trio.tasks[1], &phase));
  end_trio(1);
  MUST(phase == trio.phase - 1);
  DONE(paldwosk_barrier_next(&trio.tasks[2], &phase));
  MUST(phase == trio.phase - 1);
  begin_trio(2);
  DONE(paldwosk_barrier_next_for(&trio.tasks[2], 60000, &phase));
  end_trio(2);
  MUST(phase == trio.phase - 1);
}

/* A waiter passes when the phase is over, and nobody waits for it; a signaller is waited for. */
static void changed_by_other_modes(void) {
  paldwosk_task waits = PALDWOSK_NO_TASK, signals = PALDWOSK_NO_TASK;
  uint64_t phase = 77;
  begin_trio(1);
  DONE(paldwosk_barrier_join(&trio.tasks[2], PALDWOSK_WAIT, &waits));
  DONE(paldwosk_barrier_join(&trio.tasks[2], PALDWOSK_SIG, &signals));
  begin_call(&trio.calls[1], trio.tasks[1], 'n');
  begin_call(&trio.calls[2], trio.tasks[2], 'n');
  MUST(are_parked(&trio.barrier, 3));
  DONE(paldwosk_barrier_signal(&signals));
  end_trio(3);
  DONE(paldwosk_barrier_wait(&waits, &phase));
  MUST(phase == trio.phase - 1);
  DONE(paldwosk_barrier_leave(&waits));
  DONE(paldwosk_barrier_leave(&signals));
}

static void changed_by_missing(void) {
  char wanted[50];
  begin_trio(1);
  snprintf(wanted, sizeof wanted, "%" PRIu64 " %" PRIu64, trio.tasks[1].number, trio.tasks[2].number);
  MUST(misses(&trio.barrier, wanted));
  begin_call(&trio.calls[1], trio.tasks[1], 'n');
  MUST(are_parked(&trio.barrier, 2));
  snprintf(wanted, sizeof wanted, "%" PRIu64, trio.tasks[2].number);
  MUST(misses(&trio.barrier, wanted));
  DONE(paldwosk_barrier_next(&trio.tasks[2], NULL));
  end_trio(2);
}

/* What a second thread may do for a task that has come. It sends 3 for the next phase: the task has signalled this. */
static void changed_by_second_thread(void) {
  paldwosk_task child = PALDWOSK_NO_TASK;
  uint64_t phase = 77;
  int64_t value = 77;
  begin_trio(2);
  MUST(paldwosk_barrier_next(&trio.tasks[0], NULL) == PALDWOSK_NOT_NOW);
  MUST(paldwosk_barrier_signal(&trio.tasks[1]) == PALDWOSK_NOT_NOW);
  MUST(paldwosk_barrier_wait(&trio.tasks[1], NULL) == PALDWOSK_NOT_NOW);
  MUST(paldwosk_barrier_try_next(&trio.tasks[1], NULL) == PALDWOSK_NOT_NOW);
  DONE(paldwosk_barrier_send(&trio.tasks[0], 0, 3));
  DONE(paldwosk_barrier_look(&trio.tasks[0], 0, &value)); /* nobody has sent in the phase before */
  MUST(value == 0);
  DONE(paldwosk_barrier_join(&trio.tasks[1], PALDWOSK_SIG_WAIT, &child)); /* it has signalled, as its parent has */
  MUST(paldwosk_barrier_signal(&child) == PALDWOSK_ALREADY_SIGNALLED);
  DONE(paldwosk_barrier_next(&trio.tasks[2], &phase));
  end_trio(2);
  MUST(phase == trio.phase - 1);
  DONE(paldwosk_barrier_wait(&child, &phase));
  MUST(phase == trio.phase - 1);
  DONE(paldwosk_barrier_leave(&child));
  end_phase_of_trio();
  DONE(paldwosk_barrier_look(&trio.tasks[1], 0, &value));
  MUST(value == 3);
}

/* A second thread has a task leave that has come. Its thread is told so, even if the others have gone on long before. */
static void changed_by_leave(void) {
  paldwosk_task late = PALDWOSK_NO_TASK;
  call waiter;
  speed_trio_up();
  DONE(paldwosk_barrier_join(&trio.tasks[0], PALDWOSK_SIG_WAIT, &late));
  MUST(is_fast(&trio.barrier) == HAS_ROUNDS);
  begin_call(&waiter, late, 'n');
  MUST(are_parked(&trio.barrier, 1));
  DONE(paldwosk_barrier_leave(&late));
  end_call(&waiter, PALDWOSK_NOT_REGISTERED, 77);
  MUST(paldwosk_barrier_next(&late, NULL) == PALDWOSK_NOT_REGISTERED);
  MUST(paldwosk_barrier_leave(&late) == PALDWOSK_NOT_REGISTERED);
  end_phase_of_trio();
}

/* The one that is missing leaves: it ends the round for the others. */
static void ended_by_leave(void) {
  paldwosk_task late = PALDWOSK_NO_TASK;
  speed_trio_up();
  uint64_t before = changes_of(&trio.barrier);
  DONE(paldwosk_barrier_join(&trio.tasks[0], PALDWOSK_SIG_WAIT, &late));
  DONE(paldwosk_barrier_send(&late, 0, 40)); /* it counts though the task leaves */
  for (int at = 0; at < 3; at++) begin_call(&trio.calls[at], trio.tasks[at], 'n');
  MUST(are_parked(&trio.barrier, 3));
  DONE(paldwosk_barrier_leave(&late));
  end_trio(3);
  MUST(is_fast_since(&trio.barrier, before));
  int64_t value = 77;
  DONE(paldwosk_barrier_look(&trio.tasks[1], 0, &value));
  MUST(value == 40);
  MUST(paldwosk_barrier_send(&late, 0, 1) == PALDWOSK_NOT_REGISTERED); /* it has no seat any more */
  MUST(paldwosk_barrier_look(&late, 0, &value) == PALDWOSK_NOT_REGISTERED);
  MUST(paldwosk_barrier_join(&late, PALDWOSK_SIG_WAIT, &late) == PALDWOSK_NOT_REGISTERED);
  MUST(paldwosk_barrier_next(&late, NULL) == PALDWOSK_NOT_REGISTERED);
  end_phase_of_trio();
}

/* While another has the lock all come: they go on, since none of them needs it. */
static void all_come_beside_the_holder(void) {
  speed_trio_up();
  uint64_t before = changes_of(&trio.barrier);
  DONE(paldwoski_enter(&trio.barrier));
  for (int at = 0; at < 3 * HAS_ROUNDS; at++) begin_call(&trio.calls[at], trio.tasks[at], 'n');
  if (HAS_ROUNDS) end_trio(3);
  MUST(is_fast_since(&trio.barrier, before));
  paldwoski_unlock(&trio.barrier);
}

/* The same, and the holder makes the barrier slow while two have come: it gives the lock back until both have told. */
static void changed_by_holder(void) {
  speed_trio_up();
  DONE(paldwoski_enter(&trio.barrier));
  for (int at = 0; at < 2; at++) begin_call(&trio.calls[at], trio.tasks[at], 'n');
  for (int tried = 0; tried < 20000 && count_come(&trio.barrier) != 2 * HAS_ROUNDS; tried++) rest(1);
  paldwoski_go_slow(&trio.barrier);
  unsigned told = 0;
  for (struct paldwoski_sleeper *at = trio.barrier.first; at; at = at->next) told++;
  MUST(!is_fast(&trio.barrier) && told == 2 * HAS_ROUNDS);
  paldwoski_unlock(&trio.barrier);
  DONE(paldwosk_barrier_next(&trio.tasks[2], NULL));
  end_trio(2);
}

/* A value is kept, and the barrier is slow and fast again, twice, before its task comes. It counts once. */
static void kept_over_changes(void) {
  int64_t value = 77;
  size_t count = 77;
  speed_trio_up();
  DONE(paldwosk_barrier_send(&trio.tasks[0], 0, 11));
  for (int made = 0; made < 2; made++) {
    uint64_t before = changes_of(&trio.barrier);
    DONE(paldwosk_barrier_missing(&trio.barrier, NULL, 0, &count));
    for (int tried = 0; tried < 64 && !is_fast(&trio.barrier); tried++)
      DONE(paldwosk_barrier_missing(&trio.barrier, NULL, 0, &count));
    MUST(is_fast_since(&trio.barrier, before + 2 * HAS_ROUNDS));
  }
  end_phase_of_trio();
  DONE(paldwosk_barrier_look(&trio.tasks[1], 0, &value));
  MUST(value == 11);
  end_phase_of_trio();
  DONE(paldwosk_barrier_look(&trio.tasks[1], 0, &value));
  MUST(value == 0);
}

/* More values than a seat keeps, of two tasks: 1 + 2 + .. + 9, and 5 times 100. */
static void kept_and_told(void) {
  int64_t value = 77;
  speed_trio_up();
  for (int32_t sent = 1; sent <= 9; sent++) DONE(paldwosk_barrier_send(&trio.tasks[0], 0, sent));
  for (int sent = 0; sent < 5; sent++) DONE(paldwosk_barrier_send(&trio.tasks[1], 0, 100));
  MUST(paldwosk_barrier_send(&trio.tasks[1], 1, 100) == PALDWOSK_NO_ACCUMULATOR);
  MUST(is_fast(&trio.barrier) == HAS_ROUNDS);
  end_phase_of_trio();
  DONE(paldwosk_barrier_look(&trio.tasks[2], 0, &value));
  MUST(value == 545 && is_fast(&trio.barrier) == HAS_ROUNDS);
  DONE(paldwosk_barrier_send(&trio.tasks[0], 0, 7)); /* kept, and then its task doesn't come by its seat */
  DONE(paldwosk_barrier_signal(&trio.tasks[0]));
  DONE(paldwosk_barrier_send(&trio.tasks[0], 0, 8)); /* for the phase after */
  begin_call(&trio.calls[1], trio.tasks[1], 'n');
  DONE(paldwosk_barrier_next(&trio.tasks[2], NULL));
  end_call(&trio.calls[1], PALDWOSK_DONE, trio.phase);
  DONE(paldwosk_barrier_wait(&trio.tasks[0], NULL));
  DONE(paldwosk_barrier_look(&trio.tasks[1], 0, &value));
  MUST(value == 7);
  trio.phase++;
  end_phase_of_trio();
  DONE(paldwosk_barrier_look(&trio.tasks[1], 0, &value));
  MUST(value == 8);
}

/* A barrier is fast once its last task with singles has left. */
static void fast_without_singles(void) {
  paldwosk_barrier barrier;
  paldwosk_task root = PALDWOSK_NO_TASK, task = PALDWOSK_NO_TASK;
  make_party(&barrier, &root, 1);
  DONE(paldwosk_barrier_join(&root, PALDWOSK_SIG_WAIT, &task));
  DONE(paldwosk_barrier_signal(&root));
  DONE(paldwosk_barrier_next(&task, NULL));
  DONE(paldwosk_barrier_wait(&root, NULL));
  MUST(!is_fast(&barrier));
  DONE(paldwosk_barrier_leave(&root));
  MUST(is_fast_since(&barrier, HAS_ROUNDS));
  DONE(paldwosk_barrier_next(&task, NULL));
  MUST(is_fast_since(&barrier, HAS_ROUNDS));
  DONE(paldwosk_barrier_free(&barrier));
}

/* A barrier with a trace, or that is watched, is never fast. */
static void slow_for_good(void) {
  for (int is_traced = 0; is_traced < 2; is_traced++) {
    paldwosk_barrier barrier = PALDWOSK_NO_BARRIER;
    paldwosk_task task = PALDWOSK_NO_TASK;
    setenv("PALDWOSK_WATCH", is_traced ? "0" : "60", 1);
    DONE(is_traced ? paldwosk_barrier_new_traced(&barrier, 2, NULL, 0) : paldwosk_barrier_new(&barrier, 2, NULL, 0));
    setenv("PALDWOSK_WATCH", "0", 1);
    DONE(paldwosk_barrier_make(&barrier, PALDWOSK_SIG_WAIT, &task));
    DONE(paldwosk_barrier_next(&task, NULL));
    MUST(!is_fast(&barrier) && changes_of(&barrier) == 0);
    DONE(paldwosk_barrier_free(&barrier));
  }
}

#ifdef PALDWOSKI_IN_ROUNDS

static int has_signalled; /* atomic */

static void *signal_third(void *unused) {
  (void)unused;
  DONE(paldwosk_barrier_signal(&trio.tasks[2]));
  __atomic_store_n(&has_signalled, 1, __ATOMIC_SEQ_CST);
  return NULL;
}

/* The rest of a next, whose task has come or comes now. If the barrier is slow the thread tells its call with the lock. */
static paldwosk_answer end_by_hand(const paldwosk_task *task, struct paldwoski_seat *seat, int has_come, uint64_t *phase) {
  uint32_t answer = has_come ? (uint32_t)PALDWOSK_NOT_YET : paldwoski_come(task->barrier, seat);
  if (answer == PALDWOSK_NOT_YET) answer = paldwoski_wait_at_seat(task->barrier, seat);
  paldwoski_end_coming(task->barrier, seat, answer);
  *phase = seat->phase - 1;
  paldwoski_leave_seat(seat);
  if (answer != PALDWOSK_CLOSED) return (paldwosk_answer)answer;
  paldwoski_lock(task->barrier);
  paldwoski_uncount(task);
  paldwoski_empty_seat(task);
  return paldwoski_call_settled(task, PALDWOSKI_CALL_NEXT, 0, phase);
}

/* Task 0 has come, or is only about to. Whoever makes the barrier slow waits until its thread has told its call, before it
 * makes its own. So does whoever finds the barrier slow. */
static void come_and_not_told(int is_about_to) {
  pthread_t thread;
  uint64_t phase = 77;
  speed_trio_up();
  struct paldwoski_seat *seat = paldwoski_enter_seat(&trio.tasks[0]);
  MUST(seat == &trio.barrier.rounds->seats[trio.tasks[0].seat]);
  if (is_about_to) __atomic_store_n(&seat->coming, seat->phase + 1, __ATOMIC_RELEASE);
  else MUST(paldwoski_come(&trio.barrier, seat) == PALDWOSK_NOT_YET);
  has_signalled = 0;
  start(&thread, signal_third, NULL);
  for (int tried = 0; tried < 20000 && changes_of(&trio.barrier) % 2; tried++) rest(1);
  begin_call(&trio.calls[1], trio.tasks[1], 'n');
  rest(20);
  MUST(!__atomic_load_n(&has_signalled, __ATOMIC_SEQ_CST));
  MUST(end_by_hand(&trio.tasks[0], seat, !is_about_to, &phase) == PALDWOSK_DONE && phase == trio.phase);
  pthread_join(thread, NULL);
  end_call(&trio.calls[1], PALDWOSK_DONE, trio.phase);
  DONE(paldwosk_barrier_wait(&trio.tasks[2], &phase));
  trio.phase++;
}

static int has_sent; /* atomic */

static void *send_third(void *unused) {
  (void)unused;
  is_to_hold = 1;
  DONE(paldwosk_barrier_send(&trio.tasks[2], 0, 5));
  __atomic_store_n(&has_sent, 1, __ATOMIC_SEQ_CST);
  return NULL;
}

/* A thread has seen that the barrier is fast, and isn't at its seat yet. Another makes the barrier slow, for the same task.
 * Then the thread doesn't touch the seat: it waits for the lock. */
static void held_between_looks(void) {
  pthread_t thread;
  int64_t value = 77;
  speed_trio_up();
  const struct paldwoski_seat *seat = &trio.barrier.rounds->seats[trio.tasks[2].seat];
  is_held = is_to_go = has_sent = 0;
  start(&thread, send_third, NULL);
  for (int tried = 0; tried < 20000 && !__atomic_load_n(&is_held, __ATOMIC_SEQ_CST); tried++) rest(1);
  DONE(paldwoski_enter(&trio.barrier));
  paldwoski_settle(&trio.tasks[2]);
  MUST(!is_fast(&trio.barrier) && !seat->level.held);
  __atomic_store_n(&is_to_go, 1, __ATOMIC_SEQ_CST);
  rest(20);
  MUST(!__atomic_load_n(&has_sent, __ATOMIC_SEQ_CST) && !seat->level.held);
  paldwoski_unlock(&trio.barrier);
  pthread_join(thread, NULL);
  MUST(has_sent);
  end_phase_of_trio();
  DONE(paldwosk_barrier_look(&trio.tasks[0], 0, &value));
  MUST(value == 5);
}

/* Task 0 says that it comes, and hasn't yet: nobody goes on. */
static void said_and_not_come(void) {
  uint64_t phase = 77;
  speed_trio_up();
  struct paldwoski_seat *seat = paldwoski_enter_seat(&trio.tasks[0]);
  MUST(seat != NULL);
  __atomic_store_n(&seat->coming, seat->phase + 1, __ATOMIC_SEQ_CST);
  for (int at = 1; at < 3; at++) begin_call(&trio.calls[at], trio.tasks[at], 'n');
  MUST(are_parked(&trio.barrier, 3));
  rest(20);
  MUST(count_come(&trio.barrier) == 3);
  MUST(end_by_hand(&trio.tasks[0], seat, 0, &phase) == PALDWOSK_DONE && phase == trio.phase);
  for (int at = 1; at < 3; at++) end_call(&trio.calls[at], PALDWOSK_DONE, trio.phase);
  trio.phase++;
}

/* The thread of signal_third is on its way, and doesn't get on. */
static int does_third_wait(void) {
  rest(20);
  return !__atomic_load_n(&has_signalled, __ATOMIC_SEQ_CST);
}

/* Task 2 comes by hand, and the others end the round. It has been let go, and its thread isn't out yet. A second thread's
 * signal for it waits for that. If the barrier is slow and fast again meanwhile, the answer is still the phase in which
 * it came. */
static void let_go_and_not_out(void) {
  pthread_t thread;
  uint64_t phase = 77;
  size_t count = 77;
  speed_trio_up();
  struct paldwoski_seat *seat = paldwoski_enter_seat(&trio.tasks[2]);
  MUST(seat && paldwoski_come(&trio.barrier, seat) == PALDWOSK_NOT_YET);
  begin_call(&trio.calls[0], trio.tasks[0], 'n');
  DONE(paldwosk_barrier_next(&trio.tasks[1], &phase));
  end_call(&trio.calls[0], PALDWOSK_DONE, trio.phase);
  MUST(phase == trio.phase && seat->phase == trio.phase);
  DONE(paldwosk_barrier_missing(&trio.barrier, NULL, 0, &count));
  for (int tried = 0; tried < 64 && !is_fast(&trio.barrier); tried++)
    DONE(paldwosk_barrier_missing(&trio.barrier, NULL, 0, &count));
  MUST(is_fast(&trio.barrier) && count == 0);
  has_signalled = 0;
  start(&thread, signal_third, NULL);
  MUST(does_third_wait());
  MUST(end_by_hand(&trio.tasks[2], seat, 1, &phase) == PALDWOSK_DONE && phase == trio.phase);
  pthread_join(thread, NULL);
  trio.phase++;
  begin_call(&trio.calls[0], trio.tasks[0], 'n');
  DONE(paldwosk_barrier_next(&trio.tasks[1], &phase));
  end_call(&trio.calls[0], PALDWOSK_DONE, trio.phase);
  DONE(paldwosk_barrier_wait(&trio.tasks[2], &phase));
  MUST(phase == trio.phase++);
}

/* All seats but one are taken by threads that still wait, as it were. So one task has no seat, and the barrier is slow
 * until it leaves. */
static void without_a_seat(void) {
  paldwosk_barrier barrier;
  paldwosk_task tasks[3] = {PALDWOSK_NO_TASK};
  call first;
  party_mode = PALDWOSK_SIG_WAIT;
  make_party(&barrier, tasks, 1);
  for (int at = 2; at < THREADS; at++) barrier.rounds->seats[at].inside = 1;
  DONE(paldwosk_barrier_join(&tasks[0], PALDWOSK_SIG_WAIT, &tasks[1]));
  MUST(is_fast(&barrier) && tasks[1].seat == 1);
  begin_call(&first, tasks[0], 'n');
  MUST(are_parked(&barrier, 1));
  DONE(paldwosk_barrier_join(&tasks[1], PALDWOSK_SIG_WAIT, &tasks[2]));
  MUST(!is_fast(&barrier) && tasks[2].seat == PALDWOSKI_NO_SEAT);
  DONE(paldwosk_barrier_signal(&tasks[1]));
  DONE(paldwosk_barrier_next(&tasks[2], NULL));
  end_call(&first, PALDWOSK_DONE, 0);
  DONE(paldwosk_barrier_wait(&tasks[1], NULL));
  MUST(!is_fast(&barrier));
  DONE(paldwosk_barrier_leave(&tasks[2]));
  for (int at = 2; at < THREADS; at++) barrier.rounds->seats[at].inside = 0;
  DONE(paldwosk_barrier_leave(&tasks[0]));
  for (int done = 0; done < 70 && !is_fast(&barrier); done++) DONE(paldwosk_barrier_next(&tasks[1], NULL));
  MUST(is_fast(&barrier));
  DONE(paldwosk_barrier_free(&barrier));
}

/* A barrier that is made slow again and again stays so for 1, 2, 4 .. 64 level moments, of which each phase of one task
 * has one. After 64 fast phases it begins at 1 again. */
static void rests_longer(void) {
  paldwosk_barrier barrier;
  paldwosk_task task = PALDWOSK_NO_TASK;
  size_t count = 0;
  party_mode = PALDWOSK_SIG_WAIT;
  make_party(&barrier, &task, 1);
  for (int moments = 2, made = 0; made < 9; made++, moments *= moments < 64 ? 2 : 1) {
    DONE(paldwosk_barrier_missing(&barrier, NULL, 0, &count)); /* its end is the first level moment */
    for (int moment = 1; moment < moments; moment++) {
      MUST(!is_fast(&barrier));
      DONE(paldwosk_barrier_next(&task, NULL));
    }
    MUST(is_fast(&barrier));
  }
  uint64_t before = changes_of(&barrier);
  for (int phase = 0; phase < 64; phase++) DONE(paldwosk_barrier_next(&task, NULL));
  MUST(is_fast_since(&barrier, before));
  DONE(paldwosk_barrier_missing(&barrier, NULL, 0, &count));
  MUST(is_fast(&barrier));
  DONE(paldwosk_barrier_free(&barrier));
}

/* ---- Threads of two priorities on one processor */

static struct pair {
  paldwosk_barrier barrier;
  paldwosk_task tasks[2];
  unsigned processor;
  int is_high, has_come, has_begun; /* atomic */
} pair;

/* From now on this thread has the priority, and runs on that processor alone. */
static void take_priority(int priority) {
  uint64_t processors[16] = {0};
  struct sched_param taken;
  memset(&taken, 0, sizeof taken);
  taken.sched_priority = priority;
  processors[pair.processor / 64] = UINT64_C(1) << pair.processor % 64;
  MUST(syscall(SYS_sched_setaffinity, 0, sizeof processors, processors) >= 0);
  MUST(sched_setscheduler(0, SCHED_FIFO, &taken) == 0);
}

/* It is about to come, and the other takes the processor before it does. It has the processor only once the other may take
 * it. */
static void *come_in_low(void *unused) {
  uint64_t phase = 77;
  (void)unused;
  while (!__atomic_load_n(&pair.is_high, __ATOMIC_SEQ_CST)) rest(1);
  take_priority(10);
  struct paldwoski_seat *seat = paldwoski_enter_seat(&pair.tasks[0]);
  MUST(seat != NULL);
  __atomic_store_n(&seat->coming, 1, __ATOMIC_SEQ_CST);
  __atomic_store_n(&pair.has_come, 1, __ATOMIC_SEQ_CST);
  while (!__atomic_load_n(&pair.has_begun, __ATOMIC_SEQ_CST)) paldwoski_pause();
  MUST(end_by_hand(&pair.tasks[0], seat, 0, &phase) == PALDWOSK_DONE && phase == 0);
  return NULL;
}

/* It asks who is missing first, and waits for the other's call; or it comes at once, and waits for the phase. */
static void *come_in_high(void *asks) {
  uint64_t missing[2] = {77, 77};
  size_t count = 0;
  take_priority(20);
  __atomic_store_n(&pair.is_high, 1, __ATOMIC_SEQ_CST);
  while (!__atomic_load_n(&pair.has_come, __ATOMIC_SEQ_CST)) rest(1);
  __atomic_store_n(&pair.has_begun, 1, __ATOMIC_SEQ_CST);
  if (asks) DONE(paldwosk_barrier_missing(&pair.barrier, missing, 2, &count));
  if (asks) MUST(count == 1 && missing[0] == 1);
  DONE(paldwosk_barrier_next(&pair.tasks[1], NULL));
  return NULL;
}

static void prioritized(void) {
  static int asks;
  pthread_t low, high;
  party_mode = PALDWOSK_SIG_WAIT;
  MUST(syscall(SYS_getcpu, &pair.processor, NULL, NULL) == 0);
  for (int at = 0; at < 2; at++) {
    make_party(&pair.barrier, pair.tasks, 2);
    pair.is_high = pair.has_come = pair.has_begun = 0;
    start(&low, come_in_low, NULL);
    start(&high, come_in_high, at ? &asks : NULL);
    pthread_join(high, NULL);
    pthread_join(low, NULL);
    DONE(paldwosk_barrier_free(&pair.barrier));
  }
}

static void of_rounds_alone(void) {
  MUST(sizeof(struct paldwoski_seat) == 128 && (uintptr_t)trio.barrier.rounds % 128 == 0);
  held_between_looks();
  said_and_not_come();
  come_and_not_told(0);
  come_and_not_told(1);
  let_go_and_not_out();
  without_a_seat();
  rests_longer();
}

#else

static void prioritized(void) {}
static void of_rounds_alone(void) {}

#endif

/* ---- Calls of the archive that are refused. For want of memory it refuses some; here that is as the test wants. */

#ifdef WITH_REFUSALS
#undef phaser_c_level_open
#undef phaser_c_level_take
#undef phaser_c_level_join
#undef phaser_c_level_leave

static enum refused_call { NO_CALL, OPEN_CALL, TAKE_CALL, JOIN_CALL, LEAVE_CALL } refused_call;
static uint32_t refused_with;
static int taken_before; /* so many handles are taken, and the next is refused */

static uint32_t refusing_open(paldwosk_level *level, paldwosk_waiting *phaser, const uint64_t *tasks, size_t count) {
  return refused_call == OPEN_CALL ? refused_with : phaser_c_level_open(level, phaser, tasks, count);
}

static uint32_t refusing_take(paldwosk_level *level, paldwosk_level_task *task) {
  return refused_call == TAKE_CALL && taken_before-- <= 0 ? refused_with : phaser_c_level_take(level, task);
}

static uint32_t refusing_join(paldwosk_level_task *task, paldwosk_level_task *other) {
  return refused_call == JOIN_CALL ? refused_with : phaser_c_level_join(task, other);
}

static uint32_t refusing_leave(paldwosk_level_task *task) {
  return refused_call == LEAVE_CALL ? refused_with : phaser_c_level_leave(task);
}

/* The barrier can't become fast: each phase is made by calls with the lock, and its values count. */
static void refused_to_open(int which, int taken) {
  int64_t value = 77;
  size_t count = 77;
  speed_trio_up();
  DONE(paldwosk_barrier_send(&trio.tasks[0], 0, 5));
  DONE(paldwosk_barrier_missing(&trio.barrier, NULL, 0, &count));
  refused_call = which == OPEN_CALL ? OPEN_CALL : TAKE_CALL;
  refused_with = PALDWOSK_MEMORY;
  for (int phase = 0; phase < 70; phase++) {
    taken_before = taken;
    DONE(paldwosk_barrier_send(&trio.tasks[2], 0, 6));
    end_phase_of_trio();
    MUST(!is_fast(&trio.barrier));
    DONE(paldwosk_barrier_look(&trio.tasks[1], 0, &value));
    MUST(value == (phase ? 6 : 11));
  }
  refused_call = NO_CALL;
}

/* A task joins and leaves by the slow way, while another has come. */
static void refused_to_join(uint32_t with) {
  paldwosk_task task = PALDWOSK_NO_TASK, other = PALDWOSK_NO_TASK;
  begin_trio(1);
  refused_call = JOIN_CALL;
  refused_with = with;
  DONE(paldwosk_barrier_join(&trio.tasks[1], PALDWOSK_SIG_WAIT, &task));
  DONE(paldwosk_barrier_join(&task, PALDWOSK_SIG_WAIT, &other));
  MUST(!is_fast(&trio.barrier) && other.number == task.number + 1);
  refused_call = NO_CALL;
  DONE(paldwosk_barrier_leave(&other));
  begin_call(&trio.calls[1], trio.tasks[1], 'n');
  begin_call(&trio.calls[2], trio.tasks[2], 'n');
  DONE(paldwosk_barrier_next(&task, NULL));
  end_trio(3);
  DONE(paldwosk_barrier_leave(&task));
}

static void refused_to_leave(void) {
  paldwosk_task task = PALDWOSK_NO_TASK;
  speed_trio_up();
  DONE(paldwosk_barrier_join(&trio.tasks[1], PALDWOSK_SIG_WAIT, &task));
  MUST(is_fast(&trio.barrier));
  refused_call = LEAVE_CALL;
  refused_with = PALDWOSK_NOT_YET;
  DONE(paldwosk_barrier_leave(&task));
  MUST(!is_fast(&trio.barrier));
  refused_call = NO_CALL;
  end_phase_of_trio();
}

static void refused(void) {
  party_mode = PALDWOSK_SIG_WAIT;
  make_party(&trio.barrier, trio.tasks, 3);
  for (int most = 0; most < 2; most++) {
    DONE(paldwosk_barrier_spin(&trio.barrier, most ? PALDWOSK_MOST_PAUSES : 0));
    refused_to_open(OPEN_CALL, 0);
    for (int taken = 0; taken < 3; taken++) refused_to_open(TAKE_CALL, taken);
    refused_to_join(PALDWOSK_MEMORY);
    refused_to_join(PALDWOSK_NOT_YET);
    refused_to_leave();
  }
  speed_trio_up();
  DONE(paldwosk_barrier_free(&trio.barrier));
}

#else

static void refused(void) { exit(3); }

#endif

static void changing(void) {
  void (*const bodies[])(void) = {changed_by_signal,  changed_by_refusals,      changed_by_time, changed_by_other_modes,
                                  changed_by_missing, changed_by_second_thread, changed_by_leave, ended_by_leave,
                                  all_come_beside_the_holder, changed_by_holder, kept_over_changes, kept_and_told};
  fast_without_singles();
  slow_for_good();
  for (int most = 0; most < 2; most++) {
    party_mode = PALDWOSK_SIG_WAIT;
    make_party(&trio.barrier, trio.tasks, 3);
    DONE(paldwosk_barrier_spin(&trio.barrier, most ? PALDWOSK_MOST_PAUSES : 0));
    trio.phase = 0;
    for (size_t at = 0; at < sizeof bodies / sizeof *bodies; at++) bodies[at]();
    of_rounds_alone();
    for (int at = 0; at < 3; at++) DONE(paldwosk_barrier_leave(&trio.tasks[at]));
    DONE(paldwosk_barrier_free(&trio.barrier));
  }
}

int main(int count, char **words) {
  int given[4] = {0, 0, 0, 0};
  const char *what = count > 1 ? words[1] : "";
  for (int at = 2; at < count && at < 6; at++) given[at - 2] = atoi(words[at]);
  UNCHECKED(&yields, sizeof yields);
  if (!strcmp(what, "wrong")) wrong();
  else if (!strcmp(what, "memory")) memory();
  else if (!strcmp(what, "missing")) missing();
  else if (!strcmp(what, "watched")) watched();
  else if (!strcmp(what, "freed")) freed(given[0]);
  else if (!strcmp(what, "yielding")) yielding();
  else if (!strcmp(what, "forked")) forked_in_both(given[0]);
  else if (!strcmp(what, "interrupted")) in_both_modes(interrupted);
  else if (!strcmp(what, "cancelled")) cancelled();
  else if (!strcmp(what, "facts")) facts();
  else if (!strcmp(what, "stress")) stress(given[0], given[1], (uint32_t)given[2], 0);
  else if (!strcmp(what, "timed")) timed();
  else if (!strcmp(what, "hasty")) stress(given[0], given[1], PALDWOSK_MOST_PAUSES, 1);
  else if (!strcmp(what, "singles")) singles(given[0], given[1]);
  else if (!strcmp(what, "bounded")) bounded(given[0], given[1]);
  else if (!strcmp(what, "traced")) traced(given[0], given[1]);
  else if (!strcmp(what, "told")) told();
  else if (!strcmp(what, "crowd")) meet_for(given[0], (uint64_t)given[1], given[2], given[3]);
  else if (!strcmp(what, "rounds")) rounds(given[0], given[1], (uint32_t)given[2]);
  else if (!strcmp(what, "uneven")) uneven(given[0], given[1], (uint32_t)given[2]);
  else if (!strcmp(what, "changing")) changing();
  else if (!strcmp(what, "prioritized")) prioritized();
  else if (!strcmp(what, "refused")) refused();
  else return 3;
  return faults ? 4 : 0;
}
