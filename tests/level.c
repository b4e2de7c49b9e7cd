/* Tasks that stand level, each in a thread of its own, over the calls phaser_c_level_.. of the archive.
 *
 * level wrong: what each call is answered at each moment, worked out by hand.
 * level memory: a task is made and another joins, or memory is refused, by tests/refuse_memory.c; then nothing has changed.
 * level turns THREADS PHASES: threads turn phases. In each a task sends its number plus one, counts itself, and comes.
 *   Who is let go looks whether all have come that were there, and at the sum. Threads begin one by one, each with a task
 *   that joins by another's.
 * level crowd THREADS PHASES: the same, with visitors: threads whose tasks join by others, turn some phases, and leave.
 * level changes THREADS PHASES: threads turn phases, while one more opens the barrier to calls without a lock, and closes it,
 *   again and again. While it is closed each thread tells its own call under a lock. All else is as in turns, but that all
 *   threads are there from the start.
 * Status 4: something wasn't as it must be, which standard error names. Status 5: there was no thread, or no memory. */
#define _GNU_SOURCE
#include "../include/paldwosk.h"

#include <pthread.h>
#include <sched.h>
#include <stdio.h>
#include <stdlib.h>
#include <string.h>

#if defined(__SANITIZE_THREAD__)
#define IS_SANITIZED 1
#elif defined(__has_feature)
#if __has_feature(thread_sanitizer)
#define IS_SANITIZED 1
#endif
#endif

/* ThreadSanitizer doesn't see the archive's atomic words, but sees what the archive copies and frees. So it is told whom
 * a phase orders, and leaves aside what is done within a call. */
#ifdef IS_SANITIZED
void __tsan_acquire(void *at);
void __tsan_release(void *at);
void AnnotateIgnoreReadsBegin(const char *file, int line);
void AnnotateIgnoreReadsEnd(const char *file, int line);
void AnnotateIgnoreWritesBegin(const char *file, int line);
void AnnotateIgnoreWritesEnd(const char *file, int line);
static void comes(void *at) { __tsan_release(at); }
static void has_gone_on(void *at) { __tsan_acquire(at); }
static void enter(void) { AnnotateIgnoreReadsBegin(__FILE__, __LINE__), AnnotateIgnoreWritesBegin(__FILE__, __LINE__); }
static void leave(void) { AnnotateIgnoreWritesEnd(__FILE__, __LINE__), AnnotateIgnoreReadsEnd(__FILE__, __LINE__); }
#else
static void comes(void *at) { (void)at; }
static void has_gone_on(void *at) { (void)at; }
static void enter(void) {}
static void leave(void) {}
#endif

static uint32_t left_with(uint32_t answer) {
  leave();
  return answer;
}

/* A call of the archive's. */
#define CALL(call) (enter(), left_with(call))

static void let_free(paldwosk_level_task *task) {
  enter();
  phaser_c_level_free(task);
  leave();
}

enum { MOST = 64 };

static int faults;

static void fault(int line, const char *what, uint32_t answer) {
  if (__atomic_fetch_add(&faults, 1, __ATOMIC_RELAXED) < 20)
    fprintf(stderr, "level: line %d: %s; the answer was %u\n", line, what, (unsigned)answer);
}

#define MUST(holds)                                                                                                    \
  do {                                                                                                                 \
    if (!(holds)) fault(__LINE__, #holds, 0);                                                                          \
  } while (0)

#define ANSWERS(call, answer)                                                                                          \
  do {                                                                                                                 \
    uint32_t given = CALL(call);                                                                                       \
    if (given != (uint32_t)(answer)) fault(__LINE__, #call, given);                                                    \
  } while (0)

/* ---- What each call is answered */

static void see(paldwosk_level_task *task, uint8_t accumulator, int64_t sum) {
  int64_t seen = -1;
  ANSWERS(phaser_c_level_look_at(task, accumulator, &seen), PALDWOSK_DONE);
  MUST(seen == sum);
}

static void refused_to_new(void) {
  paldwosk_level_task task = {NULL};
  const uint32_t sum[] = {PALDWOSK_SUM}, wrong[] = {PALDWOSK_SUM, 3}, five[5] = {0, 0, 0, 0, 0};
  ANSWERS(phaser_c_level_new(&task, wrong, 2, 2), PALDWOSK_BAD_OPERATORS);
  ANSWERS(phaser_c_level_new(&task, five, 5, 2), PALDWOSK_BAD_OPERATORS);
  ANSWERS(phaser_c_level_new(&task, wrong, 2, 0), PALDWOSK_BAD_OPERATORS);
  ANSWERS(phaser_c_level_new(&task, sum, 1, 0), PALDWOSK_BAD_BOUND);
  ANSWERS(phaser_c_level_new(&task, sum, 1, 65537), PALDWOSK_BAD_BOUND);
  MUST(!task.held);
  ANSWERS(phaser_c_level_new(&task, sum, 1, 2), PALDWOSK_DONE);
  ANSWERS(phaser_c_level_new(&task, wrong, 2, 0), PALDWOSK_OPEN);
  MUST(task.held);
  let_free(&task);
  MUST(!task.held);
  let_free(&task);
}

static void closed(void) {
  paldwosk_level_task none = {NULL}, other = {NULL};
  int64_t seen = 7;
  ANSWERS(phaser_c_level_come(&none), PALDWOSK_CLOSED);
  ANSWERS(phaser_c_level_look(&none), PALDWOSK_CLOSED);
  ANSWERS(phaser_c_level_leave(&none), PALDWOSK_CLOSED);
  ANSWERS(phaser_c_level_send(&none, 0, 1), PALDWOSK_CLOSED);
  ANSWERS(phaser_c_level_look_at(&none, 0, &seen), PALDWOSK_CLOSED);
  ANSWERS(phaser_c_level_join(&none, &other), PALDWOSK_CLOSED);
  MUST(seen == 7 && !none.held && !other.held);
}

/* Three tasks, with a sum and a least. In phase 0 they send 5, 7 and -2, in phase 1 the first sends 1. */
static void in_turn(void) {
  paldwosk_level_task a = {NULL}, b = {NULL}, c = {NULL};
  const uint32_t operators[] = {PALDWOSK_SUM, PALDWOSK_LEAST};
  int64_t seen = 7;
  ANSWERS(phaser_c_level_new(&a, operators, 2, 2), PALDWOSK_DONE);
  ANSWERS(phaser_c_level_look_at(&a, 0, &seen), PALDWOSK_NO_PHASE_YET);
  ANSWERS(phaser_c_level_look(&a), PALDWOSK_NOT_NOW);
  ANSWERS(phaser_c_level_join(&a, &b), PALDWOSK_DONE);
  ANSWERS(phaser_c_level_join(&a, &b), PALDWOSK_OPEN);
  ANSWERS(phaser_c_level_send(&a, 0, 5), PALDWOSK_DONE);
  ANSWERS(phaser_c_level_send(&a, 2, 9), PALDWOSK_NO_ACCUMULATOR);
  ANSWERS(phaser_c_level_send(&b, 0, 7), PALDWOSK_DONE);
  ANSWERS(phaser_c_level_come(&a), PALDWOSK_NOT_YET);
  ANSWERS(phaser_c_level_look(&a), PALDWOSK_NOT_YET);
  ANSWERS(phaser_c_level_come(&a), PALDWOSK_NOT_NOW);
  ANSWERS(phaser_c_level_leave(&a), PALDWOSK_NOT_NOW);
  ANSWERS(phaser_c_level_send(&a, 0, 5), PALDWOSK_NOT_NOW);
  ANSWERS(phaser_c_level_look_at(&a, 0, &seen), PALDWOSK_NOT_NOW);
  ANSWERS(phaser_c_level_join(&a, &c), PALDWOSK_NOT_NOW);
  MUST(seen == 7 && !c.held);
  ANSWERS(phaser_c_level_join(&b, &c), PALDWOSK_DONE);
  ANSWERS(phaser_c_level_come(&b), PALDWOSK_NOT_YET);
  ANSWERS(phaser_c_level_send(&c, 0, -2), PALDWOSK_DONE);
  ANSWERS(phaser_c_level_send(&c, 1, -2), PALDWOSK_DONE);
  ANSWERS(phaser_c_level_look(&a), PALDWOSK_NOT_YET);
  ANSWERS(phaser_c_level_come(&c), PALDWOSK_DONE);
  see(&c, 0, 10);
  see(&c, 1, -2);
  ANSWERS(phaser_c_level_look_at(&c, 2, &seen), PALDWOSK_NO_ACCUMULATOR);
  ANSWERS(phaser_c_level_look(&a), PALDWOSK_DONE);
  see(&a, 0, 10);
  /* Phase 1: the second task hears of it only now; it is the last that is missing, and leaves. */
  ANSWERS(phaser_c_level_send(&a, 0, 1), PALDWOSK_DONE);
  ANSWERS(phaser_c_level_come(&a), PALDWOSK_NOT_YET);
  ANSWERS(phaser_c_level_come(&c), PALDWOSK_NOT_YET);
  ANSWERS(phaser_c_level_look(&c), PALDWOSK_NOT_YET);
  ANSWERS(phaser_c_level_look(&b), PALDWOSK_DONE);
  see(&b, 0, 10);
  ANSWERS(phaser_c_level_leave(&b), PALDWOSK_DONE);
  ANSWERS(phaser_c_level_leave(&b), PALDWOSK_NOT_NOW);
  ANSWERS(phaser_c_level_come(&b), PALDWOSK_NOT_NOW);
  ANSWERS(phaser_c_level_join(&b, &c), PALDWOSK_OPEN);
  ANSWERS(phaser_c_level_send(&b, 0, 1), PALDWOSK_NOT_NOW);
  let_free(&b);
  ANSWERS(phaser_c_level_look(&a), PALDWOSK_DONE);
  see(&a, 0, 1);
  seen = 7;
  ANSWERS(phaser_c_level_look_at(&a, 1, &seen), PALDWOSK_NOTHING);
  MUST(seen == 7);
  ANSWERS(phaser_c_level_look(&c), PALDWOSK_DONE);
  /* Phase 2: one leaves before the other comes; who is alone comes last. */
  ANSWERS(phaser_c_level_leave(&c), PALDWOSK_DONE);
  ANSWERS(phaser_c_level_come(&a), PALDWOSK_DONE);
  see(&a, 0, 0);
  ANSWERS(phaser_c_level_leave(&a), PALDWOSK_DONE);
  let_free(&a);
  let_free(&c);
}

/* A phaser of a sum, whose three tasks 0, 1 and 2 are registered SIG_WAIT, by who waits at it. */
static void make_three(paldwosk_waiting *phaser) {
  const uint32_t sum[] = {PALDWOSK_SUM};
  uint64_t task = 9;
  ANSWERS(phaser_c_waiting_new(phaser, sum, 1, 2), PALDWOSK_DONE);
  ANSWERS(phaser_c_waiting_make(phaser, PALDWOSK_SIG_WAIT, &task), PALDWOSK_DONE);
  MUST(task == 0);
  for (uint64_t number = 1; number < 3; number++) {
    ANSWERS(phaser_c_waiting_register(phaser, 0, PALDWOSK_SIG_WAIT, &task), PALDWOSK_DONE);
    MUST(task == number);
  }
}

/* The handles hold none, or one already; these aren't all tasks, or one is there twice; one has signalled; one waits. */
static void refused_to_open(void) {
  paldwosk_level level = {NULL}, other = {NULL};
  paldwosk_waiting phaser = {NULL}, empty = {NULL};
  paldwosk_level_task task = {NULL}, none = {NULL};
  paldwosk_freed freed[256];
  const uint64_t three[] = {2, 0, 1}, twice[] = {0, 1, 1}, four[] = {0, 1, 2, 3}, strange[] = {0, 1, 3};
  uint64_t phase = 7, sig = 0;
  size_t count = 0;
  uint8_t accumulator = 7;
  int32_t value = 7;
  ANSWERS(phaser_c_level_open(&level, &phaser, three, 3), PALDWOSK_CLOSED);
  ANSWERS(phaser_c_level_take(&level, &task), PALDWOSK_CLOSED);
  ANSWERS(phaser_c_level_close(&level, &phaser), PALDWOSK_CLOSED);
  ANSWERS(phaser_c_level_kept(&none, &accumulator, &value), PALDWOSK_CLOSED);
  phaser_c_level_drop(&level);
  make_three(&phaser);
  ANSWERS(phaser_c_level_open(&level, &phaser, three, 2), PALDWOSK_NOT_NOW);
  ANSWERS(phaser_c_level_open(&level, &phaser, NULL, 0), PALDWOSK_NOT_NOW);
  ANSWERS(phaser_c_level_open(&level, &phaser, twice, 3), PALDWOSK_NOT_NOW);
  ANSWERS(phaser_c_level_open(&level, &phaser, four, 4), PALDWOSK_NOT_NOW);
  ANSWERS(phaser_c_level_open(&level, &phaser, strange, 3), PALDWOSK_NOT_NOW);
  MUST(!level.held);
  ANSWERS(phaser_c_waiting_register(&phaser, 0, PALDWOSK_SIG, &sig), PALDWOSK_DONE);
  ANSWERS(phaser_c_level_open(&level, &phaser, four, 4), PALDWOSK_NOT_NOW);
  ANSWERS(phaser_c_level_open(&level, &phaser, three, 3), PALDWOSK_NOT_NOW);
  ANSWERS(phaser_c_waiting_leave(&phaser, sig, freed, 256, &count), PALDWOSK_DONE);
  ANSWERS(phaser_c_waiting_signal(&phaser, 1, freed, 256, &count), PALDWOSK_DONE);
  ANSWERS(phaser_c_level_open(&level, &phaser, three, 3), PALDWOSK_NOT_NOW);
  ANSWERS(phaser_c_waiting_pass(&phaser, 1, &phase, freed, 256, &count), PALDWOSK_NOT_YET);
  ANSWERS(phaser_c_level_open(&level, &phaser, three, 3), PALDWOSK_NOT_NOW);
  for (uint64_t at = 0; at < 3; at += 2) {
    ANSWERS(phaser_c_waiting_next(&phaser, at, &phase, freed, 256, &count), at ? PALDWOSK_DONE : PALDWOSK_NOT_YET);
    MUST(count == (at ? 2 : 0));
  }
  ANSWERS(phaser_c_level_open(&level, &phaser, three, 3), PALDWOSK_DONE);
  MUST(level.held);
  ANSWERS(phaser_c_waiting_send(&phaser, 0, 0, 1), PALDWOSK_CLOSED);
  ANSWERS(phaser_c_level_open(&level, &phaser, three, 3), PALDWOSK_OPEN);
  ANSWERS(phaser_c_level_open(&other, &phaser, three, 3), PALDWOSK_CLOSED);
  make_three(&empty);
  ANSWERS(phaser_c_level_close(&level, &empty), PALDWOSK_OPEN);
  ANSWERS(phaser_c_level_close(&level, &phaser), PALDWOSK_DONE);
  MUST(!level.held);
  ANSWERS(phaser_c_level_open(&level, &phaser, three, 3), PALDWOSK_DONE);
  phaser_c_level_drop(&level);
  phaser_c_level_drop(&level);
  MUST(!level.held);
  enter(), phaser_c_waiting_free(&empty), leave();
}

/* From slow to fast and back: three tasks, in the order 2, 0, 1. In phase 0 they send 5, 7 and -2 fast. In phase 1 two of
 * them come, and have sent 1 and, twice, 10; then the table is closed. What they kept is sent again by who waits. */
static void open_and_close(void) {
  paldwosk_level level = {NULL};
  paldwosk_waiting phaser = {NULL};
  paldwosk_level_task tasks[3] = {{NULL}, {NULL}, {NULL}}, more = {NULL};
  paldwosk_freed freed[256];
  const uint64_t order[] = {2, 0, 1};
  const int32_t first[] = {5, 7, -2};
  uint64_t phase = 7;
  size_t count = 0;
  uint8_t accumulator = 7;
  int32_t value = 7;
  int64_t seen = 7;
  make_three(&phaser);
  ANSWERS(phaser_c_level_open(&level, &phaser, order, 3), PALDWOSK_DONE);
  for (int at = 0; at < 3; at++) ANSWERS(phaser_c_level_take(&level, &tasks[at]), PALDWOSK_DONE);
  ANSWERS(phaser_c_level_take(&level, &tasks[0]), PALDWOSK_OPEN);
  ANSWERS(phaser_c_level_take(&level, &more), PALDWOSK_NOT_NOW);
  MUST(!more.held);
  for (int at = 0; at < 3; at++) {
    ANSWERS(phaser_c_level_look_at(&tasks[at], 0, &seen), PALDWOSK_NO_PHASE_YET);
    ANSWERS(phaser_c_level_send(&tasks[at], 0, first[at]), PALDWOSK_DONE);
    ANSWERS(phaser_c_level_come(&tasks[at]), at < 2 ? PALDWOSK_NOT_YET : PALDWOSK_DONE);
  }
  ANSWERS(phaser_c_level_look(&tasks[1]), PALDWOSK_DONE);
  see(&tasks[1], 0, 10);
  see(&tasks[2], 0, 10);
  /* The first hears of it only once the table is closed, in phase 1. */
  ANSWERS(phaser_c_level_send(&tasks[1], 0, 1), PALDWOSK_DONE);
  ANSWERS(phaser_c_level_come(&tasks[1]), PALDWOSK_NOT_YET);
  ANSWERS(phaser_c_level_send(&tasks[2], 0, 10), PALDWOSK_DONE);
  ANSWERS(phaser_c_level_send(&tasks[2], 0, 10), PALDWOSK_DONE); /* the phaser is told this one at once */
  ANSWERS(phaser_c_level_kept(&tasks[1], &accumulator, &value), PALDWOSK_NOT_NOW);
  ANSWERS(phaser_c_level_close(&level, &phaser), PALDWOSK_DONE);
  MUST(!level.held && phaser.held);
  ANSWERS(phaser_c_level_look(&tasks[0]), PALDWOSK_DONE);
  ANSWERS(phaser_c_level_kept(&tasks[0], &accumulator, &value), PALDWOSK_NOTHING);
  ANSWERS(phaser_c_level_look(&tasks[1]), PALDWOSK_CLOSED);
  ANSWERS(phaser_c_level_look(&tasks[1]), PALDWOSK_NOT_NOW);
  MUST(accumulator == 7 && value == 7);
  ANSWERS(phaser_c_level_kept(&tasks[1], &accumulator, &value), PALDWOSK_DONE);
  MUST(accumulator == 0 && value == 1);
  ANSWERS(phaser_c_level_kept(&tasks[1], &accumulator, &value), PALDWOSK_NOTHING);
  ANSWERS(phaser_c_level_come(&tasks[2]), PALDWOSK_NOT_YET);
  ANSWERS(phaser_c_level_look(&tasks[2]), PALDWOSK_CLOSED);
  ANSWERS(phaser_c_level_kept(&tasks[2], &accumulator, &value), PALDWOSK_DONE);
  MUST(accumulator == 0 && value == 10);
  ANSWERS(phaser_c_level_join(&tasks[0], &more), PALDWOSK_NOT_YET);
  ANSWERS(phaser_c_level_leave(&tasks[0]), PALDWOSK_NOT_YET);
  MUST(!more.held);
  for (int at = 0; at < 3; at++) let_free(&tasks[at]);
  /* Slow again: all three stand in phase 1, and 10 was sent in it. */
  ANSWERS(phaser_c_waiting_level(&phaser, order, 3, &phase), PALDWOSK_DONE);
  MUST(phase == 1);
  for (int at = 1; at < 3; at++)
    ANSWERS(phaser_c_waiting_send(&phaser, order[at], 0, at == 1 ? 1 : 10), PALDWOSK_DONE);
  for (uint64_t at = 0; at < 3; at++)
    ANSWERS(phaser_c_waiting_next(&phaser, at, &phase, freed, 256, &count), at < 2 ? PALDWOSK_NOT_YET : PALDWOSK_DONE);
  MUST(phase == 1 && count == 2);
  ANSWERS(phaser_c_waiting_look(&phaser, 0, 0, &seen), PALDWOSK_DONE);
  MUST(seen == 21);
  /* Fast again, in phase 2, which one task leaves; closed while all but one have come, and freed so. */
  ANSWERS(phaser_c_level_open(&level, &phaser, order, 3), PALDWOSK_DONE);
  for (int at = 0; at < 3; at++) ANSWERS(phaser_c_level_take(&level, &tasks[at]), PALDWOSK_DONE);
  see(&tasks[0], 0, 21);
  ANSWERS(phaser_c_level_leave(&tasks[1]), PALDWOSK_DONE);
  ANSWERS(phaser_c_level_join(&tasks[2], &more), PALDWOSK_DONE);
  ANSWERS(phaser_c_level_come(&tasks[0]), PALDWOSK_NOT_YET);
  ANSWERS(phaser_c_level_come(&more), PALDWOSK_NOT_YET);
  ANSWERS(phaser_c_level_close(&level, &phaser), PALDWOSK_DONE);
  const uint64_t now[] = {3, 2, 1};
  ANSWERS(phaser_c_waiting_level(&phaser, now, 3, &phase), PALDWOSK_DONE);
  MUST(phase == 2);
  ANSWERS(phaser_c_waiting_leave(&phaser, 0, freed, 256, &count), PALDWOSK_NOT_REGISTERED);
  for (int at = 0; at < 3; at++) let_free(&tasks[at]);
  let_free(&more);
  enter(), phaser_c_waiting_free(&phaser), leave();
}

/* 256 tasks are there at most; once one has left another may join. */
static void most_tasks(void) {
  static paldwosk_level_task tasks[257];
  ANSWERS(phaser_c_level_new(&tasks[0], NULL, 0, 2), PALDWOSK_DONE);
  for (int at = 1; at < 256; at++) ANSWERS(phaser_c_level_join(&tasks[at / 2], &tasks[at]), PALDWOSK_DONE);
  ANSWERS(phaser_c_level_join(&tasks[0], &tasks[256]), PALDWOSK_NOT_YET);
  MUST(!tasks[256].held);
  ANSWERS(phaser_c_level_leave(&tasks[100]), PALDWOSK_DONE);
  ANSWERS(phaser_c_level_join(&tasks[0], &tasks[256]), PALDWOSK_DONE);
  for (int at = 0; at < 256; at++)
    if (at != 100) ANSWERS(phaser_c_level_come(&tasks[at]), PALDWOSK_NOT_YET);
  ANSWERS(phaser_c_level_come(&tasks[256]), PALDWOSK_DONE);
  for (int at = 0; at < 256; at++)
    if (at != 100) ANSWERS(phaser_c_level_look(&tasks[at]), PALDWOSK_DONE);
  for (int at = 0; at < 257; at++) let_free(&tasks[at]);
}

/* Who was refused a join has registered nobody: so it turns a phase alone. */
static void lacking(void) {
  paldwosk_level_task task = {NULL}, other = {NULL};
  const uint32_t sum[] = {PALDWOSK_SUM};
  uint32_t answer = CALL(phaser_c_level_new(&task, sum, 1, 2));
  MUST(answer == PALDWOSK_DONE || answer == PALDWOSK_MEMORY);
  MUST(!task.held == (answer == PALDWOSK_MEMORY));
  if (answer != PALDWOSK_DONE) return;
  answer = CALL(phaser_c_level_join(&task, &other));
  MUST(answer == PALDWOSK_DONE || answer == PALDWOSK_MEMORY || answer == PALDWOSK_NOT_YET);
  MUST(!other.held == (answer != PALDWOSK_DONE));
  ANSWERS(phaser_c_level_send(&task, 0, 3), PALDWOSK_DONE);
  if (other.held) ANSWERS(phaser_c_level_come(&other), PALDWOSK_NOT_YET);
  ANSWERS(phaser_c_level_come(&task), PALDWOSK_DONE);
  see(&task, 0, 3);
  let_free(&task);
  let_free(&other);
}

/* ---- Threads */

enum { OF_VISITOR = 1000 }; /* what a visitor sends; a resident sends its number plus one */

/* A task and its thread. A resident stays to the end; a visitor stays for some phases. */
typedef struct seat {
  paldwosk_level_task task;
  pthread_t thread;
  long from, until; /* the phases that it takes part in, or will */
  int number;       /* of a resident; -1 of a visitor */
} seat;

static seat residents[MOST], visitors[MOST];
static int count, with_visitors;
static long phases;
static long *there, *came; /* of each phase: how many tasks are there, and how many of them have come */
static int are_there[MOST]; /* whether the resident is there */
static long marks[MOST][2]; /* the phase in which the resident came, of the last even one and the last odd one */

/* Asks again until the answer isn't NOT_YET. */
#define AWAIT(call, answer)                                                                                            \
  do {                                                                                                                 \
    uint32_t got;                                                                                                      \
    for (int tries = 1; (got = CALL(call)) == PALDWOSK_NOT_YET; tries++)                                               \
      if (tries % 64 == 0) sched_yield();                                                                              \
    if (got != (uint32_t)(answer)) fault(__LINE__, #call, got);                                                        \
  } while (0)

static void add(long *to, long more) { __atomic_fetch_add(to, more, __ATOMIC_RELAXED); }

static long value_of(const long *it) { return __atomic_load_n(it, __ATOMIC_RELAXED); }

static void *take_part(void *of);

static void begin(seat *by, seat *new, int number, long phase, long until) {
  new->number = number, new->from = phase, new->until = until;
  AWAIT(phaser_c_level_join(&by->task, &new->task), PALDWOSK_DONE);
  add(&there[phase], 1);
  if (number >= 0) __atomic_store_n(&are_there[number], 1, __ATOMIC_RELEASE);
  if (pthread_create(&new->thread, NULL, take_part, new)) _Exit(5);
}

/* What a resident does for others: it begins two residents in time, and visitors now and then. */
static void begin_others(seat *me, long phase) {
  int first = 2 * me->number + 1, second = first + 1;
  if (first < count && phase == 10 * first) begin(me, &residents[first], first, phase, phases);
  if (second < count && phase == 10 * second) begin(me, &residents[second], second, phase, phases);
  if (!with_visitors || (phase + 5 * me->number) % 16) return;
  seat *visitor = &visitors[me->number];
  if (visitor->until) pthread_join(visitor->thread, NULL);
  long until = phase + 1 + phase % 5;
  begin(me, visitor, -1, phase, until < phases ? until : phases);
}

/* Who is let go from a phase looks whether all have come in it, and at the sum of what they sent. */
static void look_round(seat *me, long phase) {
  int64_t seen = -1;
  AWAIT(phaser_c_level_look_at(&me->task, 0, &seen), PALDWOSK_DONE);
  long sum = 0, stay = 0, all = value_of(&there[phase]), have = value_of(&came[phase]);
  for (int at = 0; at < count; at++) {
    if (!__atomic_load_n(&are_there[at], __ATOMIC_ACQUIRE) || residents[at].from > phase) continue;
    stay++, sum += at + 1;
    MUST(marks[at][phase % 2] == phase);
  }
  sum += OF_VISITOR * (all - stay);
  if (have == all && seen == sum) return;
  fprintf(stderr, "level: phase %ld: %ld of %ld have come; the sum is %ld, and %lld was seen\n", phase, have, all, sum,
          (long long)seen);
  fault(__LINE__, "somebody went on early, or a value was lost", 0);
}

static void *take_part(void *of) {
  seat *me = of;
  for (long phase = me->from; phase < me->until; phase++) {
    if (me->number >= 0) begin_others(me, phase);
    AWAIT(phaser_c_level_send(&me->task, 0, me->number >= 0 ? me->number + 1 : OF_VISITOR), PALDWOSK_DONE);
    if (me->number >= 0) marks[me->number][phase % 2] = phase;
    add(&came[phase], 1);
    add(&there[phase + 1], 1);
    comes(&came[phase]);
    uint32_t answer = CALL(phaser_c_level_come(&me->task));
    if (answer == PALDWOSK_NOT_YET) AWAIT(phaser_c_level_look(&me->task), PALDWOSK_DONE);
    else MUST(answer == PALDWOSK_DONE);
    has_gone_on(&came[phase]);
    look_round(me, phase);
  }
  add(&there[me->until], -1);
  comes(&came[me->until]); /* the others go on once it has come or left */
  AWAIT(phaser_c_level_leave(&me->task), PALDWOSK_DONE);
  let_free(&me->task);
  return NULL;
}

static void turn_phases(void) {
  const uint32_t sum[] = {PALDWOSK_SUM};
  there = calloc((size_t)phases + 8, sizeof *there), came = calloc((size_t)phases + 8, sizeof *came);
  if (!there || !came || CALL(phaser_c_level_new(&residents[0].task, sum, 1, 2)) != PALDWOSK_DONE) _Exit(5);
  residents[0].until = phases, there[0] = 1, are_there[0] = 1;
  if (pthread_create(&residents[0].thread, NULL, take_part, &residents[0])) _Exit(5);
  pthread_join(residents[0].thread, NULL);
  for (int at = 1; at < count; at++) {
    MUST(are_there[at]);
    if (are_there[at]) pthread_join(residents[at].thread, NULL);
  }
  for (int at = 0; at < count; at++)
    if (visitors[at].until) pthread_join(visitors[at].thread, NULL);
  free(there), free(came);
}

/* ---- Threads, while the barrier is opened and closed */

/* A task of a barrier that is opened and closed. */
typedef struct player {
  paldwosk_level_task task;    /* its thread's alone */
  paldwosk_level_task *given;  /* what was left for it when the barrier was opened; passed on by an exchange */
  long coming;                 /* 1 more than the phase in which it comes; 0 once it knows how that ended */
  int is_counted;              /* under the lock: others wait until it has told its call */
  int is_freed;                /* another's call has ended its wait */
  pthread_t thread;
  int number;
} player;

static player players[MOST];
static pthread_mutex_t lock = PTHREAD_MUTEX_INITIALIZER;
static paldwosk_level keeper;
static paldwosk_waiting slow_phaser;
static int is_slow = 1, wants_slow, untold;
static long changes;
static uint64_t numbers[MOST];

static int flag(const int *it) { return __atomic_load_n(it, __ATOMIC_SEQ_CST); }

static void raise_flag(int *it, int to) { __atomic_store_n(it, to, __ATOMIC_SEQ_CST); }

static void let_given(player *it, paldwosk_level_task *new) {
  paldwosk_level_task *old = __atomic_exchange_n(&it->given, new, __ATOMIC_ACQ_REL);
  if (!old) return;
  let_free(old);
  free(old);
}

/* With the lock: the barrier is opened, if all stand in one phase and nobody waits. */
static void make_fast(void) {
  uint64_t phase = 0;
  if (!is_slow || untold || CALL(phaser_c_waiting_level(&slow_phaser, numbers, (size_t)count, &phase)) != PALDWOSK_DONE) return;
  ANSWERS(phaser_c_level_open(&keeper, &slow_phaser, numbers, (size_t)count), PALDWOSK_DONE);
  for (int at = 0; at < count; at++) {
    paldwosk_level_task *new = calloc(1, sizeof *new);
    if (!new) _Exit(5);
    ANSWERS(phaser_c_level_take(&keeper, new), PALDWOSK_DONE);
    let_given(&players[at], new);
  }
  raise_flag(&is_slow, 0);
}

/* With the lock: the barrier is closed. Who came in the phase tells its call itself, and is counted. */
static void make_slow(void) {
  uint64_t phase = 0;
  AWAIT(phaser_c_level_close(&keeper, &slow_phaser), PALDWOSK_DONE);
  MUST(!keeper.held && slow_phaser.held);
  raise_flag(&is_slow, 1);
  ANSWERS(phaser_c_waiting_level(&slow_phaser, numbers, (size_t)count, &phase), PALDWOSK_DONE);
  for (int at = 0; at < count; at++) {
    if (__atomic_load_n(&players[at].coming, __ATOMIC_SEQ_CST) != (long)phase + 1) continue;
    players[at].is_counted = 1, untold++;
  }
  changes++;
}

static void free_whom(const paldwosk_freed *freed, size_t many) {
  for (size_t at = 0; at < many; at++) {
    MUST(freed[at].task < (uint64_t)count && freed[at].answer == PALDWOSK_DONE);
    if (freed[at].task < (uint64_t)count) raise_flag(&players[freed[at].task].is_freed, 1);
  }
}

/* With the lock, which is given back: the call of a task while the barrier is slow. */
static void next_slowly(player *me, long phase) {
  paldwosk_freed freed[256];
  size_t many = 0;
  uint64_t ended = 0;
  raise_flag(&me->is_freed, 0);
  uint32_t answer = CALL(phaser_c_waiting_next(&slow_phaser, numbers[me->number], &ended, freed, 256, &many));
  MUST(answer == PALDWOSK_DONE || answer == PALDWOSK_NOT_YET);
  free_whom(freed, many);
  if (answer == PALDWOSK_DONE) {
    MUST(ended == (uint64_t)phase && many == (size_t)count - 1);
    if (!flag(&wants_slow)) make_fast();
  }
  pthread_mutex_unlock(&lock);
  if (answer == PALDWOSK_NOT_YET)
    while (!flag(&me->is_freed)) sched_yield();
}

static void send_slowly(player *me, uint8_t accumulator, int32_t value) {
  ANSWERS(phaser_c_waiting_send(&slow_phaser, numbers[me->number], accumulator, value), PALDWOSK_DONE);
}

/* Takes what was left for the task. */
static void fetch(player *me) {
  paldwosk_level_task *new = __atomic_exchange_n(&me->given, NULL, __ATOMIC_ACQ_REL);
  if (!new) return;
  let_free(&me->task);
  me->task = *new;
  free(new);
}

/* The table was closed while the task waited: it tells its call itself. Whether that ended the phase: it doesn't if the
 * barrier is fast again, for which the value that the task kept is kept anew. */
static int after_closing(player *me, long phase) {
  uint8_t accumulator = 9;
  int32_t value = 0;
  pthread_mutex_lock(&lock);
  __atomic_store_n(&me->coming, 0, __ATOMIC_SEQ_CST);
  if (me->is_counted) me->is_counted = 0, untold--;
  ANSWERS(phaser_c_level_kept(&me->task, &accumulator, &value), PALDWOSK_DONE);
  MUST(accumulator == 0 && value == me->number + 1);
  if (is_slow) {
    send_slowly(me, accumulator, value);
    next_slowly(me, phase);
    return 1;
  }
  pthread_mutex_unlock(&lock);
  fetch(me);
  ANSWERS(phaser_c_level_send(&me->task, accumulator, value), PALDWOSK_DONE);
  return 0;
}

static void come_fast(player *me, long phase) {
  for (;;) {
    __atomic_store_n(&me->coming, phase + 1, __ATOMIC_SEQ_CST);
    uint32_t answer = CALL(phaser_c_level_come(&me->task));
    for (int tries = 1; answer == PALDWOSK_NOT_YET; tries++) {
      answer = CALL(phaser_c_level_look(&me->task));
      if (tries % 64 == 0) sched_yield();
    }
    if (answer == PALDWOSK_DONE) break;
    MUST(answer == PALDWOSK_CLOSED);
    if (after_closing(me, phase)) return;
  }
  __atomic_store_n(&me->coming, 0, __ATOMIC_SEQ_CST);
}

/* Sends the task's number plus one, and comes. */
static void turn(player *me, long phase) {
  pthread_mutex_lock(&lock);
  while (is_slow && untold) pthread_mutex_unlock(&lock), sched_yield(), pthread_mutex_lock(&lock);
  if (is_slow) {
    send_slowly(me, 0, me->number + 1);
    next_slowly(me, phase);
    return;
  }
  pthread_mutex_unlock(&lock);
  fetch(me);
  ANSWERS(phaser_c_level_send(&me->task, 0, me->number + 1), PALDWOSK_DONE);
  come_fast(me, phase);
}

/* The sum of what was sent in the phase before. */
static int64_t sum_seen(player *me) {
  int64_t seen = -1;
  for (;;) {
    pthread_mutex_lock(&lock);
    if (is_slow) ANSWERS(phaser_c_waiting_look(&slow_phaser, numbers[me->number], 0, &seen), PALDWOSK_DONE);
    int was_slow = is_slow;
    pthread_mutex_unlock(&lock);
    if (was_slow) return seen;
    fetch(me);
    uint32_t answer = CALL(phaser_c_level_look_at(&me->task, 0, &seen));
    if (answer == PALDWOSK_DONE) return seen;
    MUST(answer == PALDWOSK_NOT_YET);
    sched_yield();
  }
}

static void *play(void *of) {
  player *me = of;
  for (long phase = 0; phase < phases; phase++) {
    marks[me->number][phase % 2] = phase;
    add(&came[phase], 1);
    comes(&came[phase]);
    turn(me, phase);
    has_gone_on(&came[phase]);
    for (int at = 0; at < count; at++) MUST(marks[at][phase % 2] == phase);
    MUST(value_of(&came[phase]) == count);
    MUST(sum_seen(me) == (int64_t)count * (count + 1) / 2);
  }
  add(&there[0], 1);
  return NULL;
}

/* Opens and closes until all are done. */
static void *change(void *of) {
  (void)of;
  while (value_of(&there[0]) < count) {
    pthread_mutex_lock(&lock);
    if (is_slow) {
      raise_flag(&wants_slow, 0);
      make_fast();
    } else {
      raise_flag(&wants_slow, changes % 3 == 0);
      make_slow();
    }
    pthread_mutex_unlock(&lock);
    for (long pause = 0; pause < changes % 7; pause++) sched_yield();
  }
  return NULL;
}

static void make_changes(void) {
  const uint32_t sum[] = {PALDWOSK_SUM};
  pthread_t changer;
  there = calloc(1, sizeof *there), came = calloc((size_t)phases + 1, sizeof *came);
  if (!there || !came || CALL(phaser_c_waiting_new(&slow_phaser, sum, 1, 2)) != PALDWOSK_DONE) _Exit(5);
  ANSWERS(phaser_c_waiting_make(&slow_phaser, PALDWOSK_SIG_WAIT, &numbers[0]), PALDWOSK_DONE);
  for (int at = 1; at < count; at++)
    ANSWERS(phaser_c_waiting_register(&slow_phaser, numbers[0], PALDWOSK_SIG_WAIT, &numbers[at]), PALDWOSK_DONE);
  for (int at = 0; at < count; at++) {
    players[at].number = at;
    if (pthread_create(&players[at].thread, NULL, play, &players[at])) _Exit(5);
  }
  if (pthread_create(&changer, NULL, change, NULL)) _Exit(5);
  for (int at = 0; at < count; at++) pthread_join(players[at].thread, NULL);
  pthread_join(changer, NULL);
  for (int at = 0; at < count; at++) let_given(&players[at], NULL), let_free(&players[at].task);
  enter(), phaser_c_level_drop(&keeper), phaser_c_waiting_free(&slow_phaser), leave();
  MUST(changes > 0);
  free(there), free(came);
}

int main(int words, char **word) {
  const char *what = words > 1 ? word[1] : "";
  if (!strcmp(what, "wrong") && words == 2) {
    refused_to_new(), closed(), in_turn(), most_tasks(), refused_to_open(), open_and_close();
  } else if (!strcmp(what, "memory") && words == 2) {
    lacking();
  } else if ((!strcmp(what, "turns") || !strcmp(what, "crowd")) && words == 4) {
    count = atoi(word[2]), phases = atol(word[3]), with_visitors = *what == 'c';
    if (count < 1 || count > MOST || phases < 10 * count) return 2;
    turn_phases();
  } else if (!strcmp(what, "changes") && words == 4) {
    count = atoi(word[2]), phases = atol(word[3]);
    if (count < 2 || count > MOST || phases < 1) return 2;
    make_changes();
  } else {
    return 2;
  }
  return faults ? 4 : 0;
}
