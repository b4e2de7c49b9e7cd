/* Paldwosk for C: a barrier for threads. Tasks may join and leave while it is in use. It is a phaser of paldwosk.h with
 * a lock and a place to sleep: a call returns once its task may go on.
 *
 *     paldwosk_barrier barrier = PALDWOSK_NO_BARRIER;
 *     paldwosk_task first = PALDWOSK_NO_TASK, second = PALDWOSK_NO_TASK;
 *     must(paldwosk_barrier_new(&barrier, 2, NULL, 0));
 *     must(paldwosk_barrier_make(&barrier, PALDWOSK_SIG_WAIT, &first));
 *     must(paldwosk_barrier_join(&first, PALDWOSK_SIG_WAIT, &second));
 *     .. and in the thread of each:  must(paldwosk_barrier_next(&task, NULL));  ..  must(paldwosk_barrier_leave(&task));
 *     must(paldwosk_barrier_free(&barrier));
 *
 * Each call answers a paldwosk_answer, and a compiler warns if it isn't looked at. Here that is for `must`, which the
 * programs of examples/linked have.
 *
 * WHAT IS PROVED. While a barrier is fast the archive decides who comes last, whose values count and who may go on, for
 * all orders in which threads may call (phaser_c_level_..; promise 57 of docs/promises.md). While it is slow the
 * functions phaser_c_waiting_.. say of a call that they are given which tasks it frees, with which answer, in which
 * order. By these calls no task goes on too early, and a task that waits after one still has to wait.
 * NOT PROVED, but tested by tests/waiting and tests/planted_faults, is what this header adds:
 *
 *   - In a fast phase it spins, yields, sleeps and wakes, which can hang. A handle of the archive's has to be used by
 *     one thread at a time, for just the calls that its task makes, and a call has to be answered as the archive
 *     answers. By nothing else can a task go early there. The number of the phase is this header's own count.
 *   - In the slow way each answer has to get to its thread. In the change between fast and slow those who had come make
 *     their calls once, and what they kept is sent once. There a fault may still let a task go early, or lose a value or
 *     fold it twice.
 *   - The mutex, what is noted of each task to say which are missing, and the trace; a replay judges that.
 *
 * WHAT IT NEEDS. gcc or clang, C11 or C++17, and the threads of POSIX. -std=c11 does: nothing has to be defined
 * before it, and it defines nothing that changes what other headers declare. Link what paldwosk.h asks for, and
 * -pthread if the C library keeps its threads apart. On Linux threads sleep by futex. Elsewhere, and if
 * PALDWOSK_PORTABLE is defined, they sleep by a condition variable. Compile all files that share a barrier with it, or
 * all without; in C++ all files of the program.
 *
 * WHAT YOU OWE, beside what stands at the head of paldwosk.h:
 *
 *   - A paldwosk_barrier is zeroed before its first use, or it is made by paldwosk_barrier_init. It is never moved, and
 *     is only passed to these functions. Making and freeing it don't overlap with other calls on it.
 *   - One thread at a time makes calls for a task. (While the task waits, a second thread's signal,
 *     wait, next or single is answered PALDWOSK_NOT_NOW; its send, look, join and leave are carried out.)
 *   - A thread that has a task goes on with it or leaves; else the others wait for it. A thread that ends doesn't
 *     leave by itself.
 *   - No call is made from a signal handler, or by a thread that may be cancelled asynchronously. A call takes up to
 *     12 KB of stack.
 *
 * FAST AND SLOW. On Linux with x86-64 a barrier is fast while all its tasks are SIG_WAIT, stand in one phase and haven't
 * signalled it. Then the archive has the phaser in a table, and each task has a handle. paldwosk_barrier_next takes no
 * lock. It takes 1 from the table's count of the tasks that haven't come. The last to come makes the whole phase in that
 * call, and lets the others go. So a phase costs each task one change of a word, and the last some 40 ns for each task.
 *
 *   - Joins in SIG_WAIT and leaves take the lock, and leave the barrier fast; tasks come meanwhile. Sends and looks take
 *     none. A task keeps one value that it sends in a phase, without asking anybody. Further ones have the phaser for a
 *     moment each; so has each of a task numbered 256 or above, and a look after a join or such a send.
 *   - A task in another mode, a signal, wait or single, a call with a time, a second thread's call for a task that
 *     waits, a call for a task that has left, paldwosk_barrier_missing, _make and _free make it slow. Then each call
 *     takes the lock. No answer depends on it.
 *   - A slow barrier is fast again once all stand in one phase and nobody waits. One that is made slow again and again
 *     stays so for longer, up to 64 such moments. It takes memory to become fast, and for each join then. If that is
 *     refused it stays slow, or becomes so.
 *   - A history that is full, after 2^62 events, leaves all tasks of a fast phase stuck: the last to come is answered
 *     HISTORY_FULL, and a call that has to make the barrier slow never returns.
 *   - A barrier that keeps a trace or is watched is always slow. So is one of a program that defines
 *     PALDWOSK_WITHOUT_ROUNDS, in all files that share it.
 *
 * WAITS WITH A TIME. Of each call that may wait there is a form .._for, which waits for so many milliseconds at most,
 * and a form try_.., which doesn't wait. If the answer hasn't come by then, it is PALDWOSK_TIMED_OUT. Nothing is taken
 * back then: a call that has to wait can't be withdrawn.
 *
 *   - The call goes on without its thread. A next or a single has signalled, unless the bound holds its signal back;
 *     then it does so once it may. Others go on by that, and none of them is disturbed.
 *   - The task's next call of the same name waits for the same answer, with a time or without. A next goes on with a
 *     next, a single with a single of the same number, in whichever form. It doesn't signal once more.
 *   - Until that answer is given, each other signal, next, wait or single of the task is answered PALDWOSK_NOT_NOW.
 *     Its send, look, join and leave are carried out. A leave ends the call; a single's is refused until it is done.
 *   - So a task that has proposed a single comes back. Others wait for it, if it is the one that is to run the
 *     statement. The time is for the waiting, not for the statement.
 *
 *     while ((answer = paldwosk_barrier_next_for(&task, 100, &phase)) == PALDWOSK_TIMED_OUT) tell_that_it_waits();
 *
 * The time is that of CLOCK_MONOTONIC on Linux, whatever is set meanwhile, and elsewhere that of the day.
 *
 * IF A PROGRAM HANGS. Run it with PALDWOSK_WATCH=SECONDS in the environment, from 1 to 86,400. A thread that waits for
 * longer than that writes a line to standard error, once for each wait:
 *
 *     paldwosk: task 0 waits for more than 5 s; waiting: 0 (phase 3), 2 (phase 3); missing: 1
 *
 * It names at most 16 tasks of each kind, and how many more there are. The variable is read when a barrier is made. A
 * watched thread doesn't spin.
 *
 * CANCELLATION AND FORK. No call is a cancellation point, also not while it waits. A thread that may be cancelled
 * elsewhere leaves by a cleanup handler of its own (pthread_cleanup_push). In a child of fork() each call on a barrier
 * of its parent is answered PALDWOSK_CLOSED, and touches no lock; the child may make barriers of its own. A child of
 * _Fork() isn't known as one: it makes no call.
 *
 * ANSWERS. A call answers PALDWOSK_NULL if a required pointer is NULL, or if the task is zeroed; then
 * PALDWOSK_CLOSED if there is no barrier, or it was freed; then what its function lists, with the refusals of
 * docs/rules.md. If the answer isn't PALDWOSK_DONE nothing has changed, unless that is said. If the pass of a next is
 * refused, its signal was made. */
#ifndef PALDWOSK_BARRIER_H
#define PALDWOSK_BARRIER_H

#include "paldwosk.h"

#include <errno.h>
#include <limits.h>
#include <poll.h>
#include <pthread.h>
#include <sched.h>
#include <stdlib.h>
#include <time.h>
#include <unistd.h>

#if defined __linux__ && !defined PALDWOSK_PORTABLE
#include <sys/syscall.h>
#ifdef SYS_futex
#define PALDWOSKI_BY_FUTEX
#if defined __x86_64__ && !defined PALDWOSK_WITHOUT_ROUNDS
#define PALDWOSKI_IN_ROUNDS
#endif
#endif
#endif

#ifdef __cplusplus
extern "C" {
#endif

#if defined __SANITIZE_THREAD__
#define PALDWOSKI_SANITIZED
#elif defined __has_feature
#if __has_feature(thread_sanitizer)
#define PALDWOSKI_SANITIZED
#endif
#endif

/* ThreadSanitizer doesn't see the archive's atomic words, but sees what the archive copies and frees. So it is told
 * whom a phase orders, and leaves aside what is done within a call. */
#ifdef PALDWOSKI_SANITIZED
void __tsan_acquire(void *at);
void __tsan_release(void *at);
void AnnotateIgnoreReadsBegin(const char *file, int line);
void AnnotateIgnoreReadsEnd(const char *file, int line);
void AnnotateIgnoreWritesBegin(const char *file, int line);
void AnnotateIgnoreWritesEnd(const char *file, int line);

PALDWOSK_INLINE void paldwoski_acquire(void *at) { __tsan_acquire(at); }
PALDWOSK_INLINE void paldwoski_release(void *at) { __tsan_release(at); }

PALDWOSK_INLINE void paldwoski_enter_archive(void) {
  AnnotateIgnoreReadsBegin(__FILE__, __LINE__);
  AnnotateIgnoreWritesBegin(__FILE__, __LINE__);
}

PALDWOSK_INLINE uint32_t paldwoski_leave_archive(uint32_t answer) {
  AnnotateIgnoreWritesEnd(__FILE__, __LINE__);
  AnnotateIgnoreReadsEnd(__FILE__, __LINE__);
  return answer;
}

#define PALDWOSKI_ARCHIVE(call) (paldwoski_enter_archive(), paldwoski_leave_archive(call))
#else
PALDWOSK_INLINE void paldwoski_acquire(void *at) { (void)at; }
PALDWOSK_INLINE void paldwoski_release(void *at) { (void)at; }
#define PALDWOSKI_ARCHIVE(call) (call)
#endif

PALDWOSK_INLINE void paldwoski_free_level(paldwosk_level_task *level) {
  if (level->held) (void)PALDWOSKI_ARCHIVE((phaser_c_level_free(level), 0));
}

PALDWOSK_INLINE void paldwoski_drop_level(paldwosk_level *level) {
  (void)PALDWOSKI_ARCHIVE((phaser_c_level_drop(level), 0));
}

#if defined PALDWOSKI_BY_FUTEX && !defined __cplusplus
long syscall(long number, ...); /* -std=c11 hides it */
#endif

#if defined __linux__ && !defined __cplusplus
int clock_gettime(int clock, struct timespec *now); /* it hides these too */
int pthread_condattr_setclock(pthread_condattr_t *by, int clock);
#endif

struct paldwoski_member;
struct paldwoski_overdue;
struct paldwoski_rounds;
struct paldwoski_sleeper;
struct paldwoski_trace;

/* How often a thread has waited; at which of these times it spins for as long as it may. */
struct paldwoski_tries {
  uint32_t waits, probe;
};

/* A barrier. Its fields are the header's. */
typedef struct paldwosk_barrier {
  const uint32_t *forks; /* how many forks lie above this process, by the file that made it; NULL: there is none */
  uint32_t forks_then;   /* the same when it was made */
  uint32_t bound;
  uint32_t watch;             /* after how many seconds a thread tells that it waits; 0: it never does */
  uint32_t accumulators;      /* how many there are */
  uint32_t tasks, processors; /* that are registered (atomic); that are online */
#ifdef PALDWOSKI_IN_ROUNDS
  struct paldwoski_rounds *rounds; /* where its tasks come while the barrier is fast */
  void *rounds_memory;            /* what is to be freed of it */
#endif
  struct paldwoski_member *members; /* the registered tasks, by their numbers */
  struct paldwoski_trace *trace;    /* NULL if none is kept */
  uint8_t kept_apart[64];          /* what changes seldom isn't in the line of the lock */
  uint32_t turn;         /* atomic: rises when sleepers are woken; it is on this word that they sleep */
  pthread_mutex_t lock;  /* guards what isn't said to be atomic */
#ifndef PALDWOSKI_BY_FUTEX
  pthread_cond_t turned; /* or on this */
#endif
  paldwosk_waiting phaser;
  struct paldwoski_sleeper *first; /* the waiting calls, the earliest in front */
  struct paldwoski_sleeper **last; /* the place of the next of them */
  struct paldwoski_overdue *overdue; /* the calls whose time is over, and whose answer hasn't been given */
  struct paldwoski_overdue *room, *spare; /* room for a call of each task whose time is over; what is free of it */
  uint32_t to_wake;               /* bits of sleepers that were freed, and are to be woken */
  uint32_t coming;                /* how many run a single, and will be back */
  uint64_t claimer;               /* the task that claimed a single last */
  struct paldwoski_tries tries;    /* of all threads together */
#ifdef PALDWOSKI_IN_ROUNDS
  uint32_t uneven;          /* how many tasks are ahead, and have another mode than SIG_WAIT, and have no seat */
  uint32_t rest, rest_left; /* at how many level moments it stays slow; how many are left of these */
#endif
  uint8_t apart[64];              /* what threads write that were freed isn't in the line of what is under the lock */
  uint32_t inside;                /* atomic: how many threads wait, or read the barrier still after they were freed */
  uint32_t pauses, most_pauses;   /* atomic: for how many a thread spins, and may spin */
  uint32_t probe_after;           /* atomic: how many don't from one that spins for as long as it may to the next */
  int32_t credit;                 /* atomic: a thread that waits yields its processor while this is positive */
} paldwosk_barrier;

/* A task of a barrier. It may be copied. */
typedef struct paldwosk_task {
  paldwosk_barrier *barrier;
  uint64_t number; /* no other task of the barrier has it, or had it */
  uint32_t seat;   /* the header's */
} paldwosk_task;

#ifdef __cplusplus
#define PALDWOSK_NO_BARRIER {}
#else
#define PALDWOSK_NO_BARRIER {0}
#endif
#define PALDWOSK_NO_TASK {NULL, 0, 0}

/* For how many pauses of the processor a thread spins at most before it sleeps, by default. */
#define PALDWOSK_MOST_PAUSES 2000

/* How often a thread tries to take the lock before it waits for it. */
#define PALDWOSKI_LOCK_TRIES 100

/* Fewer pauses than this aren't worth while. */
#define PALDWOSKI_LEAST_PAUSES 16

/* After so many others have waited one tries whether it is good to spin. */
#define PALDWOSKI_PROBE_AFTER 64

/* How often a thread yields its processor at most before it sleeps. Yields of so many microseconds are long: others have
 * much to do there. */
#define PALDWOSKI_MOST_YIELDS 10
#define PALDWOSKI_LONG_YIELDS 200

/* A barrier has credit for yields. Yields in vain cost some for each microsecond. A wait that a yield ends earns some,
 * and a wait without yields earns 1. So 1 ms in vain is paid by 63 waits that yields end, or by 4,000 without. A new
 * barrier has the most, which pays for 40 ms. */
#define PALDWOSKI_YIELDS_COST 4
#define PALDWOSKI_YIELDS_EARN 64
#define PALDWOSKI_MOST_CREDIT 160000
#define PALDWOSKI_LEAST_CREDIT (-1000000)

/* ---- What stands here, down to the barrier itself, isn't to be called. First: the trace of a barrier. It has an
 * event for each event of the phaser, in their order. What else the text needs, follows from these. */

enum { PALDWOSKI_TRACE_EVENTS = 60000, PALDWOSKI_TRACE_TASKS = 4096 };

enum {
  PALDWOSKI_EVENT_MAKE,
  PALDWOSKI_EVENT_JOIN,
  PALDWOSKI_EVENT_SIGNAL, /* a signal that is a whole act */
  PALDWOSKI_EVENT_NEXT,   /* a signal after which the act goes on with a pass */
  PALDWOSKI_EVENT_SINGLE, /* the same, and it proposes a single */
  PALDWOSKI_EVENT_CLAIM,
  PALDWOSKI_EVENT_DID,
  PALDWOSKI_EVENT_PASS, /* a pass with which an act goes on */
  PALDWOSKI_EVENT_WAIT, /* a pass that is a whole act */
  PALDWOSKI_EVENT_SEND,
  PALDWOSKI_EVENT_LOOK,
  PALDWOSKI_EVENT_LOOK_AT_NOTHING,
  PALDWOSKI_EVENT_LEAVE,
  PALDWOSKI_EVENT_STILL, /* of the text alone: the task is still there when the text has to end */
  PALDWOSKI_EVENT_SHUT   /* the end of the root, which is the last of all */
};

/* Where a task stands in the trace. */
enum {
  PALDWOSKI_TASK_ABSENT,
  PALDWOSKI_TASK_IDLE,
  PALDWOSKI_TASK_IN_NEXT,  /* it has signalled, and is to pass */
  PALDWOSKI_TASK_PROPOSED, /* the same, and the single that it proposed isn't done */
  PALDWOSKI_TASK_CLAIMED,  /* it runs that single */
  PALDWOSKI_TASK_REPORTED  /* that single is done, and it is to pass */
};

struct paldwoski_event {
  uint8_t kind, mode;
  uint16_t task;
  uint32_t other; /* a child, the number of a single, or an accumulator */
  int64_t value;
};

struct paldwoski_trace {
  uint32_t bound, operators[4], operator_count;
  uint32_t room, count; /* for how many events; how many there are */
  uint32_t tasks;       /* task numbers are below it */
  int has_ended;        /* a limit has come */
  uint8_t stands[PALDWOSKI_TRACE_TASKS];
  uint32_t began[PALDWOSKI_TRACE_TASKS]; /* with which event the task's last `next` began */
  struct paldwoski_event events[PALDWOSKI_TRACE_EVENTS];
};

/* Adds an event, after which the task stands so. */
PALDWOSK_INLINE void paldwoski_trace_add(struct paldwoski_trace *trace, uint8_t kind, uint64_t task, uint8_t stands,
                                         uint32_t other, int64_t value) {
  if (trace->count == trace->room) trace->has_ended = 1;
  if (trace->has_ended) return;
  struct paldwoski_event event = {kind, 0, (uint16_t)task, other, value};
  if (kind == PALDWOSKI_EVENT_NEXT) trace->began[task] = trace->count;
  trace->stands[task] = stands;
  trace->events[trace->count++] = event;
}

/* A task is about to do something of which no `next` and no single consists: a second thread calls for it, or the
 * statement of a single does. A `next` is then told as the two acts `signal` and `wait`. With a single the trace
 * ends: that can't be told. */
PALDWOSK_INLINE void paldwoski_trace_part(struct paldwoski_trace *trace, uint64_t task) {
  if (trace->has_ended) return;
  if (trace->stands[task] == PALDWOSKI_TASK_IN_NEXT) {
    trace->events[trace->began[task]].kind = PALDWOSKI_EVENT_SIGNAL;
    trace->stands[task] = PALDWOSKI_TASK_IDLE;
  }
  trace->has_ended = trace->stands[task] != PALDWOSKI_TASK_IDLE;
}

/* A new task, that `parent` joined; or the first, which is its own parent. */
PALDWOSK_INLINE void paldwoski_trace_new_task(struct paldwoski_trace *trace, uint64_t parent, uint32_t mode,
                                              uint64_t task) {
  uint8_t kind = task ? PALDWOSKI_EVENT_JOIN : PALDWOSKI_EVENT_MAKE;
  if (task >= PALDWOSKI_TRACE_TASKS) trace->has_ended = 1;
  if (task) paldwoski_trace_part(trace, parent);
  paldwoski_trace_add(trace, kind, parent, PALDWOSKI_TASK_IDLE, (uint32_t)task, 0);
  if (trace->has_ended) return;
  trace->events[trace->count - 1].mode = (uint8_t)mode;
  trace->stands[task] = PALDWOSKI_TASK_IDLE;
  trace->tasks = (uint32_t)task + 1;
}

PALDWOSK_INLINE void paldwoski_trace_act(struct paldwoski_trace *trace, uint8_t kind, uint64_t task, uint32_t other,
                                         int64_t value) {
  paldwoski_trace_part(trace, task);
  paldwoski_trace_add(trace, kind, task, PALDWOSKI_TASK_IDLE, other, value);
}

PALDWOSK_INLINE void paldwoski_trace_passed(struct paldwoski_trace *trace, uint64_t task) {
  int is_whole = !trace->has_ended && trace->stands[task] == PALDWOSKI_TASK_IDLE;
  paldwoski_trace_add(trace, is_whole ? PALDWOSKI_EVENT_WAIT : PALDWOSKI_EVENT_PASS, task, PALDWOSKI_TASK_IDLE, 0, 0);
}

/* The claimer reports. Now all tasks that proposed the single may pass: there is one single at a time. */
PALDWOSK_INLINE void paldwoski_trace_did(struct paldwoski_trace *trace, uint64_t task) {
  paldwoski_trace_add(trace, PALDWOSKI_EVENT_DID, task, PALDWOSKI_TASK_REPORTED, 0, 0);
  for (uint32_t other = 0; other < trace->tasks && !trace->has_ended; other++)
    if (trace->stands[other] == PALDWOSKI_TASK_PROPOSED) trace->stands[other] = PALDWOSKI_TASK_REPORTED;
}

PALDWOSK_INLINE void paldwoski_trace_left(struct paldwoski_trace *trace, uint64_t task) {
  paldwoski_trace_part(trace, task);
  paldwoski_trace_add(trace, PALDWOSKI_EVENT_LEAVE, task, PALDWOSKI_TASK_ABSENT, 0, 0);
}

/* ---- The text of a trace (docs/formats.md) */

struct paldwoski_text {
  char *text; /* NULL if it is only measured */
  size_t length;
  uint64_t ticket;
  const struct paldwoski_trace *trace;
};

PALDWOSK_INLINE void paldwoski_text_word(struct paldwoski_text *out, const char *word) {
  for (; *word; word++, out->length++)
    if (out->text) out->text[out->length] = *word;
}

PALDWOSK_INLINE void paldwoski_text_number(struct paldwoski_text *out, int64_t number) {
  char digits[24], *digit = digits + 23;
  uint64_t left = number < 0 ? 0 - (uint64_t)number : (uint64_t)number;
  *digit = 0;
  do *--digit = (char)('0' + left % 10);
  while (left /= 10);
  if (number < 0) *--digit = '-';
  paldwoski_text_word(out, digit);
}

PALDWOSK_INLINE void paldwoski_text_operators(struct paldwoski_text *out) {
  static const char *const names[] = {"\"sum\"", "\"least\"", "\"greatest\""};
  for (uint32_t at = 0; at < out->trace->operator_count; at++) {
    paldwoski_text_word(out, at ? "," : "");
    paldwoski_text_word(out, names[out->trace->operators[at]]);
  }
}

/* What stands for a letter after a $ in a form. */
PALDWOSK_INLINE void paldwoski_text_field(struct paldwoski_text *out, const struct paldwoski_event *event, char letter) {
  static const char *const modes[] = {"\"SIG\"", "\"WAIT\"", "\"SIG_WAIT\"", "\"SINGLE\""};
  if (letter == 't') paldwoski_text_number(out, event->task);
  else if (letter == 'o') paldwoski_text_number(out, event->other);
  else if (letter == 'v') paldwoski_text_number(out, event->value);
  else if (letter == 'm') paldwoski_text_word(out, modes[event->mode]);
  else if (letter == 'b') paldwoski_text_number(out, out->trace->bound);
  else paldwoski_text_operators(out);
}

/* One entry of the text. */
PALDWOSK_INLINE void paldwoski_text_entry(struct paldwoski_text *out, const struct paldwoski_event *event,
                                          const char *form) {
  paldwoski_text_word(out, out->ticket ? ",[" : "[");
  paldwoski_text_number(out, (int64_t)++out->ticket);
  for (char letter[2] = {0, 0}; *form; form++) {
    letter[0] = *form;
    if (*form == '$') paldwoski_text_field(out, event, *++form);
    else paldwoski_text_word(out, letter);
  }
  paldwoski_text_word(out, "]");
}

/* The entries of an event. That of the root's end comes later, in place of its `ended`. */
PALDWOSK_INLINE void paldwoski_text_event(struct paldwoski_text *out, const struct paldwoski_event *event) {
  static const char *const forms[][3] = {
      {",\"p\",0,\"make\",$t,$m,[$a],$b", NULL, NULL},
      {",\"t\",$t,\"begin\",[\"async\",$o,[[0,$m]]]", ",\"p\",0,\"reg\",$t,$o,$m", ",\"f\",0,\"spawned\",$o"},
      {",\"t\",$t,\"begin\",[\"signal\"]", ",\"p\",0,\"sig\",$t", NULL},
      {",\"t\",$t,\"begin\",[\"next\"]", ",\"p\",0,\"sig\",$t", NULL},
      {",\"t\",$t,\"begin\",[\"single\",$o]", ",\"p\",0,\"sig\",$t,$o", NULL},
      {",\"p\",0,\"claim\",$t", NULL, NULL},
      {",\"p\",0,\"did\",$t", NULL, NULL},
      {",\"p\",0,\"pass\",$t", NULL, NULL},
      {",\"t\",$t,\"begin\",[\"wait\"]", ",\"p\",0,\"pass\",$t", NULL},
      {",\"p\",0,\"send\",$t,$o,$v", NULL, NULL},
      {",\"p\",0,\"look\",$t,$o,$v", NULL, NULL},
      {",\"p\",0,\"look\",$t,$o,null", NULL, NULL},
      {",\"t\",$t,\"begin\",[\"end\"]", ",\"p\",0,\"drop\",$t", ",\"f\",0,\"ended\",$t"},
      {",\"t\",$t,\"refuse\",[\"shut\"],21", ",\"p\",0,\"drop\",$t", ",\"f\",0,\"ended\",$t"},
      {",\"f\",0,\"shut\"", NULL, NULL}};
  int is_end = event->kind == PALDWOSKI_EVENT_LEAVE || event->kind == PALDWOSKI_EVENT_STILL;
  int entries = is_end && event->task == 0 ? 2 : 3;
  for (int at = 0; at < entries && forms[event->kind][at]; at++)
    paldwoski_text_entry(out, event, forms[event->kind][at]);
}

/* All events that were made. A `next` without its pass is told as the act `signal`. */
PALDWOSK_INLINE void paldwoski_text_made(struct paldwoski_text *out) {
  for (uint32_t at = 0; at < out->trace->count; at++) {
    struct paldwoski_event event = out->trace->events[at];
    int is_open = out->trace->stands[event.task] == PALDWOSKI_TASK_IN_NEXT && out->trace->began[event.task] == at;
    if (event.kind == PALDWOSKI_EVENT_NEXT && is_open) event.kind = PALDWOSKI_EVENT_SIGNAL;
    paldwoski_text_event(out, &event);
  }
}

PALDWOSK_INLINE void paldwoski_text_of_task(struct paldwoski_text *out, uint8_t kind, uint32_t task) {
  struct paldwoski_event event = {kind, 0, (uint16_t)task, 0, 0};
  paldwoski_text_event(out, &event);
}

/* The ends of all tasks that stand so, after their passes if these are due. Each is told as a refusal that no call of a
 * barrier is answered: so a reader knows from the ends that were made those that the text alone has. */
PALDWOSK_INLINE void paldwoski_text_ends(struct paldwoski_text *out, uint8_t stands, int is_pass_due) {
  for (uint32_t task = 0; task < out->trace->tasks; task++) {
    if (out->trace->stands[task] != stands) continue;
    if (is_pass_due) paldwoski_text_of_task(out, PALDWOSKI_EVENT_PASS, task);
    paldwoski_text_of_task(out, PALDWOSKI_EVENT_STILL, task);
  }
}

PALDWOSK_INLINE uint32_t paldwoski_text_first(const struct paldwoski_trace *trace, uint8_t stands) {
  uint32_t task = 0;
  while (task < trace->tasks && trace->stands[task] != stands) task++;
  return task;
}

/* Makes a run of the events: all tasks that are still there end. Idle tasks end first, because they would hold up a task
 * that has proposed a single. Then the statement is told as done, if it isn't, and the others pass and end: no task of a
 * run leaves a single behind. */
PALDWOSK_INLINE void paldwoski_text_closed(struct paldwoski_text *out) {
  uint32_t tasks = out->trace->tasks, claimer = paldwoski_text_first(out->trace, PALDWOSKI_TASK_CLAIMED);
  uint32_t proposer = paldwoski_text_first(out->trace, PALDWOSKI_TASK_PROPOSED);
  paldwoski_text_ends(out, PALDWOSKI_TASK_IDLE, 0);
  paldwoski_text_ends(out, PALDWOSKI_TASK_IN_NEXT, 0);
  paldwoski_text_ends(out, PALDWOSKI_TASK_REPORTED, 1);
  if (claimer == tasks && proposer < tasks) paldwoski_text_of_task(out, PALDWOSKI_EVENT_CLAIM, claimer = proposer);
  if (claimer < tasks) paldwoski_text_of_task(out, PALDWOSKI_EVENT_DID, claimer);
  paldwoski_text_ends(out, PALDWOSKI_TASK_CLAIMED, 1);
  paldwoski_text_ends(out, PALDWOSKI_TASK_PROPOSED, 1);
  if (tasks == 0) paldwoski_text_entry(out, NULL, ",\"t\",0,\"begin\",[\"end\"]"); /* the phaser was never made */
  paldwoski_text_of_task(out, PALDWOSKI_EVENT_SHUT, 0);
}

PALDWOSK_INLINE size_t paldwoski_text_whole(const struct paldwoski_trace *trace, char *text) {
  struct paldwoski_text out = {text, 0, 0, trace};
  paldwoski_text_word(&out, "{\"events\":[");
  paldwoski_text_made(&out);
  paldwoski_text_closed(&out);
  paldwoski_text_word(&out, "],\"limits\":{\"acts\":65536,\"history\":65536,\"tasks\":4096},\"version\":2}");
  return out.length;
}

/* ---- Calls that wait */

enum { PALDWOSKI_CALL_SIGNAL, PALDWOSKI_CALL_WAIT, PALDWOSKI_CALL_NEXT, PALDWOSKI_CALL_SINGLE };
enum { PALDWOSKI_SPINNING = 0, PALDWOSKI_READY = 1, PALDWOSKI_ASLEEP = 2 };
enum { PALDWOSKI_CLOCK = 1 }; /* CLOCK_MONOTONIC */

/* A call that may have to wait, on the stack of the thread that makes it, or at its task's seat. Once it is READY it
 * may be gone. */
struct paldwoski_sleeper {
  struct paldwoski_sleeper *next;
  uint64_t task, number; /* the number is what the answer has besides */
  paldwosk_level_task *level; /* by what its task has come, if the barrier was fast; else NULL */
  uint32_t call, single, answer;
  uint32_t state;     /* atomic if threads sleep by futex, else guarded by the lock */
  uint32_t patience;  /* for how many pauses it spins */
  uint32_t yields;    /* and then, how often it yields its processor at most */
  uint8_t is_probe;   /* that is as long as it may */
  uint8_t is_parked;  /* it has to wait: it was put into the list, and counted as inside */
  uint8_t is_to_ask;  /* of a traced barrier: it makes its next call before the lock is given back */
  uint8_t is_to_pass; /* of a traced barrier: that call is the pass */
};

PALDWOSK_INLINE struct paldwoski_sleeper paldwoski_new_sleeper(uint64_t task, uint32_t call, uint32_t single) {
  struct paldwoski_sleeper me = {NULL, task, 0, NULL, call, single, PALDWOSK_NOT_YET, 0, 0, 0, 0, 0, 0, 0};
  return me;
}

enum { PALDWOSKI_MOST_MEMBERS = 256, PALDWOSKI_MEMBER_PLACES = 512 };

/* The places for freed tasks take 6 KB of stack, and those for missing tasks 2 KB. The functions that have them aren't
 * inlined: no two have them at once. */
#ifdef __cplusplus
#define PALDWOSKI_APART inline __attribute__((noinline))
#else
#define PALDWOSKI_APART static __attribute__((noinline, unused))
#endif

#ifdef PALDWOSKI_IN_ROUNDS

enum { PALDWOSKI_NO_SEAT = PALDWOSKI_MOST_MEMBERS };
enum { PALDWOSKI_LINE = 128 }; /* a processor may fetch two lines of memory at once */

#define PALDWOSKI_ALONE __attribute__((aligned(PALDWOSKI_LINE))) /* begins a line of its own */

/* Where a task comes while the barrier is fast, by a handle of the archive's. What isn't atomic is of the thread that
 * is at the seat. With the lock another may be there: it claims the seat, or the barrier is slow, and nobody comes. */
struct paldwoski_seat {
  uint64_t task PALDWOSKI_ALONE; /* atomic: the number of its task; PALDWOSKI_NOBODY if it is free */
  uint64_t coming;              /* atomic: the phase after the one in which its thread comes; 0 once it knows how */
  uint32_t inside;              /* atomic: whether a thread is at it */
  uint32_t is_counted;          /* with the lock: its thread is among the untold */
  uint64_t phase;               /* where the task stands */
  uint64_t era;                 /* of which the handle is */
  paldwosk_level_task level;    /* the handle */
  paldwosk_level_task given;    /* with the lock: that of the newest era, until it is fetched */
  struct paldwoski_tries tries;  /* of its thread */
};

/* What is left here to do for fast phases. With the lock, unless it is said to be atomic. */
struct paldwoski_rounds {
  uint64_t era PALDWOSKI_ALONE;         /* atomic: odd while the barrier is fast; it rises by 1 with each change */
  uint32_t sleepers PALDWOSKI_ALONE;    /* atomic: how many threads sleep at seats, or are about to */
  uint32_t untold PALDWOSKI_ALONE;      /* atomic: how many had come when it became slow, and haven't told it yet */
  uint32_t held;                       /* how many threads wait for that; meanwhile it stays slow */
  uint64_t opened;                     /* the phase in which it became fast last */
  uint64_t next_task;                  /* the number of the task that is registered next */
  paldwosk_level level;                /* while it is fast: the archive's keeper of the phaser */
  uint64_t tasks[PALDWOSKI_MOST_MEMBERS];  /* the registered tasks, the least number first */
  uint16_t places[PALDWOSKI_MOST_MEMBERS]; /* the seats of these */
  struct paldwoski_seat seats[PALDWOSKI_MOST_MEMBERS];
};

#endif

PALDWOSK_INLINE void paldwoski_put_last(paldwosk_barrier *barrier, struct paldwoski_sleeper *sleeper) {
  sleeper->next = NULL;
  *barrier->last = sleeper;
  barrier->last = &sleeper->next;
}

PALDWOSK_INLINE struct paldwoski_sleeper *paldwoski_take(paldwosk_barrier *barrier, struct paldwoski_sleeper **place) {
  struct paldwoski_sleeper *sleeper = *place;
  if (!sleeper) return NULL;
  *place = sleeper->next;
  if (!sleeper->next) barrier->last = place;
  return sleeper;
}

/* Takes out the call of this task. The phaser frees calls nearly in their order, so it stands near the front. */
PALDWOSK_INLINE struct paldwoski_sleeper *paldwoski_take_task(paldwosk_barrier *barrier, uint64_t task) {
  struct paldwoski_sleeper **place = &barrier->first;
  while (*place && (*place)->task != task) place = &(*place)->next;
  return paldwoski_take(barrier, place);
}

PALDWOSK_INLINE struct paldwoski_sleeper *paldwoski_take_asking(paldwosk_barrier *barrier) {
  struct paldwoski_sleeper **place = &barrier->first;
  while (*place && !(*place)->is_to_ask) place = &(*place)->next;
  return paldwoski_take(barrier, place);
}

/* Puts another in the place of a sleeper. It is the same call from then on. */
PALDWOSK_INLINE void paldwoski_replace(paldwosk_barrier *barrier, struct paldwoski_sleeper *sleeper,
                                       struct paldwoski_sleeper *other) {
  struct paldwoski_sleeper **place = &barrier->first;
  while (*place != sleeper) place = &(*place)->next;
  *other = *sleeper;
  *place = other;
  if (!other->next) barrier->last = &other->next;
}

/* ---- Who is registered, and where each task stands. The core knows, but isn't asked: it has no export that tells. All
 * this is with the lock. What a waiting call has done so far isn't noted. It follows from the list of sleepers. While
 * the barrier is fast all stand in one phase, and no member is looked at. */

/* A registered task, in the first place that is free from its number on. */
struct paldwoski_member {
  uint64_t number;
  uint64_t passes : 60, mode : 2, is_there : 1;
  uint64_t is_ahead : 1; /* it has signalled since its last pass, by a call that is over */
};

/* The place of this task, or the free one that it would have. Half of the places are free. */
PALDWOSK_INLINE struct paldwoski_member *paldwoski_member_of(paldwosk_barrier *barrier, uint64_t number) {
  size_t at = number % PALDWOSKI_MEMBER_PLACES;
  while (barrier->members[at].is_there && barrier->members[at].number != number) at = (at + 1) % PALDWOSKI_MEMBER_PLACES;
  return &barrier->members[at];
}

/* For how much the member counts among what keeps the barrier from being fast. */
PALDWOSK_INLINE uint32_t paldwoski_unevenness(const struct paldwoski_member *member) {
  return (uint32_t)(member->mode != PALDWOSK_SIG_WAIT) + member->is_ahead;
}

PALDWOSK_INLINE void paldwoski_count_uneven(paldwosk_barrier *barrier, uint32_t more, uint32_t fewer) {
#ifdef PALDWOSKI_IN_ROUNDS
  barrier->uneven += more - fewer;
#else
  (void)barrier, (void)more, (void)fewer;
#endif
}

/* Takes a task out. Those behind it move up, if else a free place came before them. */
PALDWOSK_INLINE void paldwoski_remove_member(paldwosk_barrier *barrier, uint64_t number) {
  struct paldwoski_member *members = barrier->members;
  size_t hole = (size_t)(paldwoski_member_of(barrier, number) - members);
  paldwoski_count_uneven(barrier, 0, paldwoski_unevenness(&members[hole]));
  for (size_t at = (hole + 1) % PALDWOSKI_MEMBER_PLACES; members[at].is_there; at = (at + 1) % PALDWOSKI_MEMBER_PLACES) {
    size_t from_first = (at - members[at].number) % PALDWOSKI_MEMBER_PLACES;
    if (from_first < (at - hole) % PALDWOSKI_MEMBER_PLACES) continue;
    members[hole] = members[at];
    hole = at;
  }
  members[hole].is_there = 0;
  __atomic_store_n(&barrier->tasks, barrier->tasks - 1, __ATOMIC_RELAXED);
}

PALDWOSK_INLINE int paldwoski_can_signal(const struct paldwoski_member *member) { return member->mode != PALDWOSK_WAIT; }

PALDWOSK_INLINE int paldwoski_can_wait(const struct paldwoski_member *member) { return member->mode != PALDWOSK_SIG; }

/* The least phase in which a task is that can wait; UINT64_MAX if there is none. */
PALDWOSK_INLINE uint64_t paldwoski_least_phase(const paldwosk_barrier *barrier) {
  uint64_t least = UINT64_MAX;
  for (size_t at = 0; at < PALDWOSKI_MEMBER_PLACES; at++) {
    const struct paldwoski_member *member = &barrier->members[at];
    if (member->is_there && paldwoski_can_wait(member) && member->passes < least) least = member->passes;
  }
  return least;
}

/* Whether the bound holds back the signal of a waiting call in this phase. Else the call has signalled. */
PALDWOSK_INLINE int paldwoski_is_held(const paldwosk_barrier *barrier, const struct paldwoski_sleeper *sleeper,
                                      uint64_t phase, uint64_t least) {
  return sleeper->call != PALDWOSKI_CALL_WAIT && least <= phase && phase - least >= barrier->bound;
}

/* Whether a task has signalled its phase, also if it waits in the call that did so. */
PALDWOSK_INLINE int paldwoski_is_ahead(const paldwosk_barrier *barrier, const struct paldwoski_member *member) {
  const struct paldwoski_sleeper *sleeper = barrier->first;
  if (member->is_ahead) return 1;
  while (sleeper && sleeper->task != member->number) sleeper = sleeper->next;
  return sleeper && sleeper->call != PALDWOSKI_CALL_WAIT &&
         !paldwoski_is_held(barrier, sleeper, member->passes, paldwoski_least_phase(barrier));
}

/* A new task that stands where its parent stands; or the first, which is its own parent. */
PALDWOSK_INLINE void paldwoski_add_member(paldwosk_barrier *barrier, uint64_t parent, uint32_t mode, uint64_t number) {
  const struct paldwoski_member *from = paldwoski_member_of(barrier, parent);
  struct paldwoski_member *member = paldwoski_member_of(barrier, number);
  uint64_t passes = from->is_there ? from->passes : 0;
  uint32_t is_ahead = from->is_there && mode != PALDWOSK_WAIT && paldwoski_is_ahead(barrier, from);
  member->number = number;
  member->passes = passes & (UINT64_MAX >> 4);
  member->mode = mode & 3;
  member->is_ahead = is_ahead & 1;
  member->is_there = 1;
  paldwoski_count_uneven(barrier, paldwoski_unevenness(member), 0);
  __atomic_store_n(&barrier->tasks, barrier->tasks + 1, __ATOMIC_RELAXED);
}

/* A call of a task was made: it has passed this phase, or it has signalled. */
PALDWOSK_INLINE void paldwoski_move_member(paldwosk_barrier *barrier, const struct paldwoski_sleeper *sleeper) {
  struct paldwoski_member *member = paldwoski_member_of(barrier, sleeper->task);
  int has_passed = sleeper->answer == PALDWOSK_DONE && sleeper->call != PALDWOSKI_CALL_SIGNAL;
  uint32_t before = paldwoski_unevenness(member);
  if (has_passed) member->passes = (sleeper->number + 1) & (UINT64_MAX >> 4);
  member->is_ahead = !has_passed;
  paldwoski_count_uneven(barrier, paldwoski_unevenness(member), before);
}

/* For which calls of others the waiting calls wait. */
struct paldwoski_want {
  uint8_t is_waiting[PALDWOSKI_MEMBER_PLACES]; /* of each member */
  uint64_t signals;                           /* so many signals each task has to make; 0: nobody waits to pass */
  uint64_t held;                              /* the phase after the greatest that the bound holds back; 0: none */
};

PALDWOSK_INLINE void paldwoski_find_want(paldwosk_barrier *barrier, struct paldwoski_want *want) {
  static const struct paldwoski_want none = {{0}, 0, 0};
  uint64_t least = paldwoski_least_phase(barrier);
  *want = none;
  for (struct paldwoski_sleeper *at = barrier->first; at; at = at->next) {
    const struct paldwoski_member *member = paldwoski_member_of(barrier, at->task);
    uint64_t *most = paldwoski_is_held(barrier, at, member->passes, least) ? &want->held : &want->signals;
    want->is_waiting[member - barrier->members] = 1;
    if (*most <= member->passes) *most = member->passes + 1;
  }
}

PALDWOSK_INLINE int paldwoski_is_missing(const paldwosk_barrier *barrier, const struct paldwoski_member *member,
                                         const struct paldwoski_want *want) {
  int is_running = barrier->coming && barrier->claimer == member->number;
  if (!member->is_there || want->is_waiting[member - barrier->members]) return 0;
  if (paldwoski_can_signal(member) && member->passes + member->is_ahead < want->signals) return 1;
  if (paldwoski_can_wait(member) && member->passes + barrier->bound < want->held) return 1;
  return is_running && member->passes < want->signals;
}

/* The missing tasks, by their numbers: how many they are. */
PALDWOSK_INLINE size_t paldwoski_find_missing(paldwosk_barrier *barrier, uint64_t missing[PALDWOSKI_MOST_MEMBERS]) {
  struct paldwoski_want want;
  size_t count = 0;
  paldwoski_find_want(barrier, &want);
  for (size_t at = 0; at < PALDWOSKI_MEMBER_PLACES; at++) {
    if (!paldwoski_is_missing(barrier, &barrier->members[at], &want)) continue;
    size_t place = count++;
    for (; place && missing[place - 1] > barrier->members[at].number; place--) missing[place] = missing[place - 1];
    missing[place] = barrier->members[at].number;
  }
  return count;
}

/* The same, and writes them if there is room for all. */
PALDWOSKI_APART size_t paldwoski_write_missing(paldwosk_barrier *barrier, uint64_t *tasks, size_t room) {
  uint64_t missing[PALDWOSKI_MOST_MEMBERS];
  size_t count = paldwoski_find_missing(barrier, missing);
  for (size_t at = 0; count <= room && at < count; at++) tasks[at] = missing[at];
  return count;
}

/* With the lock: the call of a sleeper that isn't in the list any more is over. */
PALDWOSK_INLINE void paldwoski_set_answer(paldwosk_barrier *barrier, struct paldwoski_sleeper *sleeper, uint32_t answer,
                                          uint64_t number) {
  sleeper->answer = answer;
  sleeper->number = number;
  if (answer == PALDWOSK_DONE || answer == PALDWOSK_CLAIMED) paldwoski_move_member(barrier, sleeper);
  if (answer != PALDWOSK_CLAIMED) return;
  barrier->coming++;
  barrier->claimer = sleeper->task;
}

PALDWOSK_INLINE int paldwoski_is_ready(const struct paldwoski_sleeper *me) {
  return __atomic_load_n(&me->state, __ATOMIC_ACQUIRE) == PALDWOSKI_READY;
}

/* Whether its call is over. If its task has come at a fast barrier the archive says so, and the look is its last. */
PALDWOSK_INLINE int paldwoski_is_over(struct paldwoski_sleeper *me) {
  if (!me->level) return paldwoski_is_ready(me);
  if (me->answer == PALDWOSK_NOT_YET) me->answer = PALDWOSKI_ARCHIVE(phaser_c_level_look(me->level));
  return me->answer != PALDWOSK_NOT_YET;
}

PALDWOSK_INLINE int64_t paldwoski_microseconds(void) {
  struct timespec now = {0, 0};
  timespec_get(&now, TIME_UTC); /* of the clocks it is the one that -std=c11 doesn't hide */
  return (int64_t)now.tv_sec * 1000000 + now.tv_nsec / 1000;
}

/* The time by which a wait ends. Nobody sets this clock. */
PALDWOSK_INLINE struct timespec paldwoski_now(void) {
  struct timespec now = {0, 0};
#ifdef __linux__
  clock_gettime(PALDWOSKI_CLOCK, &now);
#else
  timespec_get(&now, TIME_UTC); /* as condition variables have it */
#endif
  return now;
}

PALDWOSK_INLINE struct timespec paldwoski_after(uint32_t milliseconds) {
  struct timespec until = paldwoski_now();
  until.tv_sec += (time_t)(milliseconds / 1000);
  until.tv_nsec += (long)(milliseconds % 1000) * 1000000;
  if (until.tv_nsec >= 1000000000) until.tv_sec++, until.tv_nsec -= 1000000000;
  return until;
}

/* With the lock: how often the thread that waits now may yield. */
PALDWOSK_INLINE uint32_t paldwoski_yields(paldwosk_barrier *barrier) {
  int32_t credit = __atomic_load_n(&barrier->credit, __ATOMIC_RELAXED);
  if (!__atomic_load_n(&barrier->most_pauses, __ATOMIC_RELAXED)) return 0;
  if (credit > 0) return PALDWOSKI_MOST_YIELDS;
  __atomic_store_n(&barrier->credit, credit + 1, __ATOMIC_RELAXED);
  return 0;
}

/* What is learned of yields that took so many microseconds. They are in vain if the thread has to sleep all the same, or
 * if they were long. A change that another thread's overtakes is lost: the credit orders nothing. */
PALDWOSK_INLINE void paldwoski_learn_of_yields(paldwosk_barrier *barrier, int64_t took, int is_in_vain) {
  int32_t credit = __atomic_load_n(&barrier->credit, __ATOMIC_RELAXED);
  int64_t better = (int64_t)credit + PALDWOSKI_YIELDS_EARN;
  if (is_in_vain) better = credit - PALDWOSKI_YIELDS_COST * took;
  if (better > PALDWOSKI_MOST_CREDIT) better = PALDWOSKI_MOST_CREDIT;
  if (better < PALDWOSKI_LEAST_CREDIT) better = PALDWOSKI_LEAST_CREDIT;
  if (better != credit) __atomic_store_n(&barrier->credit, (int32_t)better, __ATOMIC_RELAXED);
}

/* Lets others have the processor, and the lock if threads sleep with it by a condition variable. */
PALDWOSK_INLINE void paldwoski_give_way(paldwosk_barrier *barrier) {
#ifdef PALDWOSKI_BY_FUTEX
  (void)barrier;
  sched_yield();
#else
  pthread_mutex_unlock(&barrier->lock);
  sched_yield();
  pthread_mutex_lock(&barrier->lock);
#endif
}

/* With more threads than processors those that the call waits for may have none. To yield to them takes less time than
 * to sleep and to be woken. */
PALDWOSK_INLINE void paldwoski_yield(paldwosk_barrier *barrier, struct paldwoski_sleeper *me) {
  if (!me->yields || paldwoski_is_over(me)) return;
  int64_t began = paldwoski_microseconds(), took = 0;
  for (uint32_t done = 0; done < me->yields && took < PALDWOSKI_LONG_YIELDS && !paldwoski_is_over(me); done++) {
    paldwoski_give_way(barrier);
    took = paldwoski_microseconds() - began;
    if (took < 0) took = 0; /* somebody has set the clock */
  }
  paldwoski_learn_of_yields(barrier, took, took >= PALDWOSKI_LONG_YIELDS || !paldwoski_is_over(me));
}

#ifdef PALDWOSKI_BY_FUTEX

PALDWOSK_INLINE void paldwoski_pause(void) {
#if defined __x86_64__ || defined __i386__
  __builtin_ia32_pause();
#elif defined __aarch64__
  __asm__ __volatile__("isb" ::: "memory");
#else
  __asm__ __volatile__("" ::: "memory");
#endif
}

/* For how many pauses a thread that waits now spins before it sleeps: as many as the barrier has learned to be good.
 * Now and then it spins for as long as it may, to see whether that is good again. With more tasks than processors it
 * would only keep others off. */
PALDWOSK_INLINE uint32_t paldwoski_patience(paldwosk_barrier *barrier, struct paldwoski_sleeper *me,
                                            struct paldwoski_tries *tries) {
  if (__atomic_load_n(&barrier->tasks, __ATOMIC_RELAXED) > barrier->processors) return 0;
  me->is_probe = ++tries->waits == tries->probe;
  if (!me->is_probe) return __atomic_load_n(&barrier->pauses, __ATOMIC_RELAXED);
  tries->probe += __atomic_load_n(&barrier->probe_after, __ATOMIC_RELAXED);
  return __atomic_load_n(&barrier->most_pauses, __ATOMIC_RELAXED);
}

/* A thread that neither spins nor yields counts as asleep from the start; but not at a traced barrier, because its call
 * may be over before the lock is given back. */
PALDWOSK_INLINE void paldwoski_prepare(paldwosk_barrier *barrier, struct paldwoski_sleeper *me) {
  me->patience = paldwoski_patience(barrier, me, &barrier->tries);
  me->yields = paldwoski_yields(barrier);
  me->state = me->patience || me->yields || barrier->trace ? PALDWOSKI_SPINNING : PALDWOSKI_ASLEEP;
}

/* Sets a word that all who wait read, if it isn't so already. */
PALDWOSK_INLINE void paldwoski_set(uint32_t *word, uint32_t value) {
  if (__atomic_load_n(word, __ATOMIC_RELAXED) != value) __atomic_store_n(word, value, __ATOMIC_RELAXED);
}

/* What a thread learns that has spun. If it was freed meanwhile, others spin longer, else half as long, and soon not
 * at all: so a barrier at which it is in vain loses little by it. If a probe was in vain the next comes later. */
PALDWOSK_INLINE void paldwoski_learn(paldwosk_barrier *barrier, const struct paldwoski_sleeper *me, int is_in_vain) {
  uint32_t pauses = __atomic_load_n(&barrier->pauses, __ATOMIC_RELAXED);
  uint32_t after = __atomic_load_n(&barrier->probe_after, __ATOMIC_RELAXED);
  uint32_t most = __atomic_load_n(&barrier->most_pauses, __ATOMIC_RELAXED);
  if (!is_in_vain) after = PALDWOSKI_PROBE_AFTER;
  else if (me->is_probe && after < 64 * PALDWOSKI_PROBE_AFTER) after *= 2;
  pauses = is_in_vain ? pauses / 2 : (pauses + most + 1) / 2;
  paldwoski_set(&barrier->probe_after, after);
  paldwoski_set(&barrier->pauses, pauses < PALDWOSKI_LEAST_PAUSES ? 0 : pauses);
}

PALDWOSK_INLINE uint32_t paldwoski_turn(const paldwosk_barrier *barrier) {
  return __atomic_load_n(&barrier->turn, __ATOMIC_SEQ_CST);
}

PALDWOSK_INLINE void paldwoski_raise_turn(paldwosk_barrier *barrier) {
  __atomic_fetch_add(&barrier->turn, 1, __ATOMIC_SEQ_CST);
}

/* The call that takes a time as long as time_t is: with 32 bits it is another than before, from Linux 5.1 on. */
#ifdef SYS_futex_time64
#define PALDWOSKI_TIMED_FUTEX (sizeof(time_t) > sizeof(long) ? SYS_futex_time64 : SYS_futex)
#else
#define PALDWOSKI_TIMED_FUTEX SYS_futex
#endif

/* Sleeps while the word is as it was seen; or wakes all that sleep there and have one of the bits. */
PALDWOSK_INLINE void paldwoski_futex(uint32_t *word, int is_wake, uint32_t seen, uint32_t bits) {
  enum { WAIT_BITSET = 9, WAKE_BITSET = 10, IS_PRIVATE = 128 };
  int kept = errno;
  (void)syscall(SYS_futex, word, (is_wake ? WAKE_BITSET : WAIT_BITSET) | IS_PRIVATE, seen, NULL, NULL, bits);
  errno = kept;
}

PALDWOSK_INLINE uint32_t paldwoski_bit(uint64_t task) { return (uint32_t)1 << task % 32; }

/* With the lock. A spinning thread sees it by itself; a sleeping one has to be woken. */
PALDWOSK_INLINE void paldwoski_set_ready(paldwosk_barrier *barrier, struct paldwoski_sleeper *sleeper) {
  uint32_t bit = paldwoski_bit(sleeper->task);
  uint32_t state = __atomic_exchange_n(&sleeper->state, PALDWOSKI_READY, __ATOMIC_ACQ_REL);
  if (state == PALDWOSKI_ASLEEP) barrier->to_wake |= bit; /* by now a sleeper that wasn't may be gone */
}

/* The lock is held for a fraction of a microsecond: to wait for it in the kernel would take many times that. */
PALDWOSK_INLINE void paldwoski_lock(paldwosk_barrier *barrier) {
  for (int tried = 0; tried < PALDWOSKI_LOCK_TRIES; tried++) {
    if (pthread_mutex_trylock(&barrier->lock) == 0) return;
    paldwoski_pause();
  }
  pthread_mutex_lock(&barrier->lock);
}

/* After it the call is over, or the sleeper is ASLEEP: then others have to wake it. */
PALDWOSK_INLINE void paldwoski_spin(paldwosk_barrier *barrier, struct paldwoski_sleeper *me) {
  uint32_t spun = 0, state = PALDWOSKI_SPINNING;
  for (; spun < me->patience && !paldwoski_is_over(me); spun++) paldwoski_pause();
  if (me->patience) paldwoski_learn(barrier, me, spun == me->patience);
  paldwoski_yield(barrier, me);
  if (paldwoski_is_over(me) || __atomic_load_n(&me->state, __ATOMIC_RELAXED) != PALDWOSKI_SPINNING) return;
  __atomic_compare_exchange_n(&me->state, &state, PALDWOSKI_ASLEEP, 0, __ATOMIC_ACQUIRE, __ATOMIC_ACQUIRE);
}

/* The turn is read before it is asked whether the call is over. A thread freed after that finds that the turn isn't what
 * it was, and doesn't sleep. */
PALDWOSK_INLINE void paldwoski_sleep(paldwosk_barrier *barrier, struct paldwoski_sleeper *me) {
  while (!paldwoski_is_over(me)) {
    uint32_t seen = paldwoski_turn(barrier);
    if (!paldwoski_is_over(me)) paldwoski_futex(&barrier->turn, 0, seen, paldwoski_bit(me->task));
  }
}

#else

PALDWOSK_INLINE void paldwoski_lock(paldwosk_barrier *barrier) { pthread_mutex_lock(&barrier->lock); }

PALDWOSK_INLINE void paldwoski_prepare(paldwosk_barrier *barrier, struct paldwoski_sleeper *me) {
  me->yields = paldwoski_yields(barrier);
}

PALDWOSK_INLINE void paldwoski_set_ready(paldwosk_barrier *barrier, struct paldwoski_sleeper *sleeper) {
  sleeper->state = PALDWOSKI_READY;
  barrier->to_wake = 1;
}

/* Yields, and sleeps until the call is over. The waiting for a condition variable would be a cancellation point. */
PALDWOSK_INLINE void paldwoski_sleep(paldwosk_barrier *barrier, struct paldwoski_sleeper *me) {
  int old = 0;
  paldwoski_yield(barrier, me);
  pthread_setcancelstate(PTHREAD_CANCEL_DISABLE, &old);
  while (!paldwoski_is_ready(me)) pthread_cond_wait(&barrier->turned, &barrier->lock);
  pthread_setcancelstate(old, &old);
}

#endif

PALDWOSK_INLINE void paldwoski_set_parked(paldwosk_barrier *barrier, struct paldwoski_sleeper *me) {
  me->is_parked = 1;
  paldwoski_prepare(barrier, me);
  __atomic_fetch_add(&barrier->inside, 1, __ATOMIC_RELAXED);
}

PALDWOSK_INLINE void paldwoski_park(paldwosk_barrier *barrier, struct paldwoski_sleeper *me) {
  paldwoski_set_parked(barrier, me);
  paldwoski_put_last(barrier, me);
}

/* ---- The phaser's calls, all with the lock. A traced barrier makes one call for each event, so that it knows them
 * all: in place of a signal with a pass a signal, and then, once that is made, a pass. Whoever is freed at its signal
 * is put into the list again, and asks to pass before the lock is given back. */

PALDWOSK_INLINE uint32_t paldwoski_ask_whole(paldwosk_barrier *barrier, struct paldwoski_sleeper *me,
                                             paldwosk_freed *freed, size_t *count) {
  paldwosk_waiting *phaser = &barrier->phaser;
  size_t room = PALDWOSK_MOST_FREED;
  if (me->call == PALDWOSKI_CALL_NEXT) return phaser_c_waiting_next(phaser, me->task, &me->number, freed, room, count);
  if (me->call == PALDWOSKI_CALL_WAIT) return phaser_c_waiting_pass(phaser, me->task, &me->number, freed, room, count);
  if (me->call == PALDWOSKI_CALL_SIGNAL) return phaser_c_waiting_signal(phaser, me->task, freed, room, count);
  return phaser_c_waiting_next_single(phaser, me->task, me->single, &me->number, freed, room, count);
}

PALDWOSK_INLINE uint32_t paldwoski_ask_once(paldwosk_barrier *barrier, struct paldwoski_sleeper *me,
                                            paldwosk_freed *freed, size_t *count) {
  paldwosk_waiting *phaser = &barrier->phaser;
  size_t room = PALDWOSK_MOST_FREED;
  if (me->is_to_pass) return phaser_c_waiting_pass(phaser, me->task, &me->number, freed, room, count);
  if (me->call != PALDWOSKI_CALL_SINGLE) return phaser_c_waiting_signal(phaser, me->task, freed, room, count);
  return phaser_c_waiting_signal_single(phaser, me->task, me->single, freed, room, count);
}

/* The event of a traced call that was made. */
PALDWOSK_INLINE void paldwoski_trace_call(struct paldwoski_trace *trace, const struct paldwoski_sleeper *of,
                                          uint32_t answer) {
  static const uint8_t kinds[] = {PALDWOSKI_EVENT_SIGNAL, 0, PALDWOSKI_EVENT_NEXT, PALDWOSKI_EVENT_SINGLE};
  static const uint8_t stands[] = {PALDWOSKI_TASK_IDLE, 0, PALDWOSKI_TASK_IN_NEXT, PALDWOSKI_TASK_PROPOSED};
  uint64_t task = of->task;
  if (answer == PALDWOSK_CLAIMED) paldwoski_trace_add(trace, PALDWOSKI_EVENT_CLAIM, task, PALDWOSKI_TASK_CLAIMED, 0, 0);
  else if (answer != PALDWOSK_DONE) return;
  else if (of->is_to_pass) paldwoski_trace_passed(trace, task);
  else paldwoski_trace_add(trace, kinds[of->call], task, stands[of->call], of->single, 0);
}

/* A call of a sleeper that isn't in the list has ended so. */
PALDWOSK_INLINE void paldwoski_go_on(paldwosk_barrier *barrier, struct paldwoski_sleeper *sleeper, uint32_t answer,
                                     uint64_t number) {
  if (barrier->trace) paldwoski_trace_call(barrier->trace, sleeper, answer);
  if (barrier->trace && answer == PALDWOSK_DONE && !sleeper->is_to_pass && sleeper->call != PALDWOSKI_CALL_SIGNAL) {
    sleeper->is_to_ask = sleeper->is_to_pass = 1;
    paldwoski_put_last(barrier, sleeper);
    return;
  }
  paldwoski_set_answer(barrier, sleeper, answer, number);
  paldwoski_set_ready(barrier, sleeper);
}

PALDWOSK_INLINE void paldwoski_free_those(paldwosk_barrier *barrier, const paldwosk_freed *freed, size_t count) {
  for (size_t at = 0; at < count; at++) {
    struct paldwoski_sleeper *sleeper = paldwoski_take_task(barrier, freed[at].task);
    if (sleeper) paldwoski_go_on(barrier, sleeper, freed[at].answer, freed[at].number);
  }
}

PALDWOSKI_APART void paldwoski_ask_and_free(paldwosk_barrier *barrier, struct paldwoski_sleeper *me) {
  paldwosk_freed freed[PALDWOSK_MOST_FREED];
  size_t count = 0;
  uint32_t answer = paldwoski_ask_whole(barrier, me, freed, &count);
  if (answer == PALDWOSK_NOT_YET) paldwoski_park(barrier, me);
  else paldwoski_set_answer(barrier, me, answer, me->number);
  paldwoski_free_those(barrier, freed, count);
}

/* Makes the call of a sleeper that isn't in the list: of one at a traced barrier, or of one that has come in a round. */
PALDWOSKI_APART void paldwoski_ask_for(paldwosk_barrier *barrier, struct paldwoski_sleeper *sleeper) {
  paldwosk_freed freed[PALDWOSK_MOST_FREED];
  size_t count = 0;
  uint32_t answer;
  sleeper->is_to_ask = 0;
  if (barrier->trace) answer = paldwoski_ask_once(barrier, sleeper, freed, &count);
  else answer = paldwoski_ask_whole(barrier, sleeper, freed, &count);
  if (answer == PALDWOSK_NOT_YET) paldwoski_put_last(barrier, sleeper);
  else paldwoski_go_on(barrier, sleeper, answer, sleeper->number);
  paldwoski_free_those(barrier, freed, count);
}

/* ---- Calls whose time is over. Such a call stands among the sleepers until it is freed, and keeps its answer. */

struct paldwoski_overdue {
  struct paldwoski_sleeper call;
  struct paldwoski_overdue *next;
};

/* The place of a task's overdue call in their list; that of NULL if it has none. */
PALDWOSK_INLINE struct paldwoski_overdue **paldwoski_overdue_of(paldwosk_barrier *barrier, uint64_t task) {
  struct paldwoski_overdue **place = &barrier->overdue;
  while (*place && (*place)->call.task != task) place = &(*place)->next;
  return place;
}

/* The time is over: the call goes on without its thread. There is room, since a task waits in one call at once. */
PALDWOSK_INLINE void paldwoski_go_overdue(paldwosk_barrier *barrier, struct paldwoski_sleeper *me) {
  struct paldwoski_overdue *it = barrier->spare;
  barrier->spare = it->next;
  it->next = barrier->overdue;
  barrier->overdue = it;
  paldwoski_replace(barrier, me, &it->call);
  it->call.state = PALDWOSKI_SPINNING; /* nobody has to be woken */
  it->call.is_parked = 0;
  me->is_parked = 0;
  me->answer = PALDWOSK_TIMED_OUT;
  __atomic_fetch_sub(&barrier->inside, 1, __ATOMIC_RELAXED);
}

/* The task's overdue call, if it has one, isn't overdue any more. */
PALDWOSK_INLINE void paldwoski_end_overdue(paldwosk_barrier *barrier, uint64_t task) {
  struct paldwoski_overdue **place = paldwoski_overdue_of(barrier, task), *it = *place;
  if (!it) return;
  *place = it->next;
  it->next = barrier->spare;
  barrier->spare = it;
}

/* A task calls that has an overdue call. If it is the same, the thread waits for it again, or has its answer. */
PALDWOSKI_APART void paldwoski_go_on_overdue(paldwosk_barrier *barrier, struct paldwoski_sleeper *me) {
  struct paldwoski_sleeper *call = &(*paldwoski_overdue_of(barrier, me->task))->call;
  me->answer = PALDWOSK_NOT_NOW;
  if (me->call != call->call || me->single != call->single) return;
  if (paldwoski_is_ready(call)) {
    *me = *call;
  } else {
    paldwoski_replace(barrier, call, me);
    paldwoski_set_parked(barrier, me);
  }
  paldwoski_end_overdue(barrier, me->task);
}

PALDWOSKI_APART void paldwoski_report(paldwosk_barrier *barrier, struct paldwoski_sleeper *me) {
  paldwosk_freed freed[PALDWOSK_MOST_FREED];
  size_t count = 0;
  me->answer = phaser_c_waiting_single_done(&barrier->phaser, me->task, freed, PALDWOSK_MOST_FREED, &count);
  if (me->answer == PALDWOSK_DONE && barrier->trace) paldwoski_trace_did(barrier->trace, me->task);
  paldwoski_free_those(barrier, freed, count);
}

/* The threads that are counted as inside have been woken, and only need a processor for a moment. If yielding doesn't
 * give them one, this thread sleeps: theirs may be of a lower priority. */
PALDWOSK_INLINE void paldwoski_let_others_run(uint32_t tried) {
  int old = 0, kept = errno;
  if (tried < 100) {
    sched_yield();
    return;
  }
  pthread_setcancelstate(PTHREAD_CANCEL_DISABLE, &old);
  poll(NULL, 0, 1);
  pthread_setcancelstate(old, &old);
  errno = kept;
}

/* ---- Rounds. While all tasks stand level the barrier is fast. The archive has its phaser then, in what the tasks
 * share there, and each task has a handle of its own. Of a task that comes the archive says whether it may go on. Who
 * has a handle when, who sleeps, and how the phaser goes there and back is seen to here. */

#ifdef PALDWOSKI_IN_ROUNDS

#define PALDWOSKI_NOBODY UINT64_MAX

/* For so many level moments a barrier stays slow at most; and so many fast phases in a row make that 1 again. */
enum { PALDWOSKI_MOST_REST = 64 };

/* So often the archive is asked with the lock for what it can't do just now. Then the slow way is tried. */
enum { PALDWOSKI_MOST_ASKED = 300 };

/* Waits for a thread that doesn't block. */
PALDWOSK_INLINE void paldwoski_bide(uint32_t tried) {
  if (tried < PALDWOSKI_LOCK_TRIES) paldwoski_pause();
  else paldwoski_let_others_run(tried - PALDWOSKI_LOCK_TRIES);
}

/* With the lock. */
PALDWOSK_INLINE int paldwoski_is_slow(const paldwosk_barrier *barrier) {
  return __atomic_load_n(&barrier->rounds->era, __ATOMIC_RELAXED) % 2 == 0;
}

/* With the lock: the barrier is fast if it was slow, or the other way round. */
PALDWOSK_INLINE void paldwoski_begin_era(paldwosk_barrier *barrier) {
  uint64_t *era = &barrier->rounds->era;
  __atomic_store_n(era, __atomic_load_n(era, __ATOMIC_RELAXED) + 1, __ATOMIC_SEQ_CST);
}

/* Wakes those who sleep at seats: the archive lets them go by now, or the barrier is slow. A thread counts itself
 * before it reads the turn and looks for the last time. So it is seen here, or it sees there that it needn't sleep. */
PALDWOSK_INLINE void paldwoski_wake_seats(paldwosk_barrier *barrier) {
  if (!__atomic_load_n(&barrier->rounds->sleepers, __ATOMIC_SEQ_CST)) return;
  paldwoski_raise_turn(barrier);
  paldwoski_futex(&barrier->turn, 1, INT_MAX, UINT32_MAX);
}

/* ---- Seats */

/* The seat of a task; NULL if it has none, or isn't registered. */
PALDWOSK_INLINE struct paldwoski_seat *paldwoski_seat_of(const paldwosk_task *task) {
  struct paldwoski_seat *seat = &task->barrier->rounds->seats[task->seat % PALDWOSKI_MOST_MEMBERS];
  return __atomic_load_n(&seat->task, __ATOMIC_RELAXED) == task->number ? seat : NULL;
}

/* Nobody is at it: its thread comes, or another claims it. */
PALDWOSK_INLINE int paldwoski_pass_to_seat(struct paldwoski_seat *seat) {
  uint32_t nobody = 0;
  return __atomic_compare_exchange_n(&seat->inside, &nobody, 1, 0, __ATOMIC_SEQ_CST, __ATOMIC_RELAXED);
}

/* The last that a thread does at its seat: it reads the barrier no more. */
PALDWOSK_INLINE void paldwoski_leave_seat(struct paldwoski_seat *seat) {
  __atomic_store_n(&seat->inside, 0, __ATOMIC_RELEASE);
}

PALDWOSK_INLINE int paldwoski_is_left(const struct paldwoski_seat *seat) {
  return !__atomic_load_n(&seat->inside, __ATOMIC_SEQ_CST);
}

/* Here a test holds a thread. */
#ifndef PALDWOSKI_BETWEEN_LOOKS
#define PALDWOSKI_BETWEEN_LOOKS() ((void)0)
#endif

/* The seat of a task, at which its thread is now; NULL if the barrier is slow, its handle isn't fetched, or another is
 * there. Whoever makes the barrier slow says so before it looks who is at a seat. So the thread looks again once it is
 * there. */
PALDWOSK_INLINE struct paldwoski_seat *paldwoski_enter_seat(const paldwosk_task *task) {
  struct paldwoski_rounds *rounds = task->barrier->rounds;
  struct paldwoski_seat *seat = &rounds->seats[task->seat % PALDWOSKI_MOST_MEMBERS];
  if (__atomic_load_n(&rounds->era, __ATOMIC_RELAXED) % 2 == 0) return NULL;
  PALDWOSKI_BETWEEN_LOOKS();
  if (!paldwoski_pass_to_seat(seat)) return NULL;
  uint64_t era = __atomic_load_n(&rounds->era, __ATOMIC_SEQ_CST);
  if (paldwoski_seat_of(task) && era % 2 && era == seat->era) return seat;
  paldwoski_leave_seat(seat);
  return NULL;
}

/* At a seat: has the archive send a value, and asks again while others have the phaser, unless the barrier is slow now. */
PALDWOSK_INLINE uint32_t paldwoski_send_by(struct paldwoski_rounds *rounds, struct paldwoski_seat *seat, uint8_t index,
                                           int32_t value) {
  uint32_t answer = PALDWOSK_NOT_YET;
  for (uint32_t tried = 0; answer == PALDWOSK_NOT_YET; tried++) {
    if (tried) paldwoski_bide(tried);
    if (__atomic_load_n(&rounds->era, __ATOMIC_ACQUIRE) != seat->era) break;
    answer = PALDWOSKI_ARCHIVE(phaser_c_level_send(&seat->level, index, value));
  }
  return answer;
}

/* The same of a look at an accumulator. */
PALDWOSK_INLINE uint32_t paldwoski_look_by(struct paldwoski_rounds *rounds, struct paldwoski_seat *seat, uint8_t index,
                                           int64_t *value) {
  uint32_t answer = PALDWOSK_NOT_YET;
  for (uint32_t tried = 0; answer == PALDWOSK_NOT_YET; tried++) {
    if (tried) paldwoski_bide(tried);
    if (__atomic_load_n(&rounds->era, __ATOMIC_ACQUIRE) != seat->era) break;
    answer = PALDWOSKI_ARCHIVE(phaser_c_level_look_at(&seat->level, index, value));
  }
  return answer;
}

/* With the lock, at a seat: its handle is of this era after it. What the handle before kept is kept by this one. */
PALDWOSK_INLINE void paldwoski_fetch(struct paldwoski_rounds *rounds, struct paldwoski_seat *seat) {
  uint64_t era = __atomic_load_n(&rounds->era, __ATOMIC_RELAXED);
  paldwosk_level_task before = seat->level;
  uint8_t index = 0;
  int32_t value = 0;
  if (seat->era == era) return;
  seat->level = seat->given;
  seat->given.held = NULL;
  seat->phase = rounds->opened;
  seat->era = era;
  if (PALDWOSKI_ARCHIVE(phaser_c_level_kept(&before, &index, &value)) == PALDWOSK_DONE)
    (void)paldwoski_send_by(rounds, seat, index, value);
  paldwoski_free_level(&before);
}

/* With the lock: the seat of a task at a fast barrier, which the thread has claimed; NULL if it can't be. */
PALDWOSK_INLINE struct paldwoski_seat *paldwoski_claim_seat(const paldwosk_task *task) {
  struct paldwoski_seat *seat = paldwoski_is_slow(task->barrier) ? NULL : paldwoski_seat_of(task);
  if (!seat || !paldwoski_pass_to_seat(seat)) return NULL;
  paldwoski_fetch(task->barrier->rounds, seat);
  return seat;
}

/* With the lock: whether the task can come by its seat. Its handle is fetched after it. */
PALDWOSK_INLINE int paldwoski_can_come(const paldwosk_task *task) {
  struct paldwoski_seat *seat = paldwoski_claim_seat(task);
  if (seat) paldwoski_leave_seat(seat);
  return seat != NULL;
}

/* With the lock: a seat for a new task; NO_SEAT if there is none. A thread whose task has left may still be there. */
PALDWOSK_INLINE uint32_t paldwoski_free_place(const paldwosk_barrier *barrier) {
  const struct paldwoski_rounds *rounds = barrier->rounds;
  uint32_t place = 0;
  while (place < PALDWOSKI_NO_SEAT &&
         (__atomic_load_n(&rounds->seats[place].task, __ATOMIC_RELAXED) != PALDWOSKI_NOBODY ||
          !paldwoski_is_left(&rounds->seats[place])))
    place++;
  return place;
}

/* With the lock: the task is at this place from now on, if there is such a seat. Else the barrier is slow. */
PALDWOSK_INLINE void paldwoski_add_seat(paldwosk_barrier *barrier, uint64_t number, uint32_t place) {
  struct paldwoski_rounds *rounds = barrier->rounds;
  uint32_t at = barrier->tasks - 1;
  rounds->tasks[at] = number;
  rounds->places[at] = (uint16_t)place;
  rounds->next_task = number + 1;
  if (place == PALDWOSKI_NO_SEAT) {
    barrier->uneven++;
    return;
  }
  struct paldwoski_seat *seat = &rounds->seats[place];
  seat->is_counted = 0;
  seat->tries.waits = place % PALDWOSKI_PROBE_AFTER; /* so that not all try in one phase whether it is good to spin */
  seat->tries.probe = PALDWOSKI_PROBE_AFTER;
  __atomic_store_n(&seat->coming, 0, __ATOMIC_RELAXED);
  __atomic_store_n(&seat->task, number, __ATOMIC_RELEASE);
}

/* With the lock, if no other is at the seat, or can come to it before its task has another number. */
PALDWOSK_INLINE void paldwoski_clear_seat(struct paldwoski_seat *seat) {
  paldwoski_free_level(&seat->level);
  paldwoski_free_level(&seat->given);
  seat->era = 0;
  __atomic_store_n(&seat->task, PALDWOSKI_NOBODY, __ATOMIC_RELEASE);
}

/* With the lock: a task has left. */
PALDWOSK_INLINE void paldwoski_remove_task(paldwosk_barrier *barrier, uint64_t number) {
  struct paldwoski_rounds *rounds = barrier->rounds;
  uint32_t at = 0;
  while (rounds->tasks[at] != number) at++;
  if (rounds->places[at] == PALDWOSKI_NO_SEAT) barrier->uneven--;
  else paldwoski_clear_seat(&rounds->seats[rounds->places[at]]);
  for (; at + 1 < barrier->tasks; at++) {
    rounds->tasks[at] = rounds->tasks[at + 1];
    rounds->places[at] = rounds->places[at + 1];
  }
  paldwoski_remove_member(barrier, number);
}

PALDWOSK_INLINE int paldwoski_are_seats_left(const paldwosk_barrier *barrier) {
  uint32_t place = 0;
  while (place < PALDWOSKI_MOST_MEMBERS && paldwoski_is_left(&barrier->rounds->seats[place])) place++;
  return place == PALDWOSKI_MOST_MEMBERS;
}

/* ---- From fast to slow. The phaser is the lock holder's again, and all tasks stand in it. Those that had come are
 * told so by the archive, and their threads then make their calls with the lock. */

PALDWOSK_INLINE void paldwoski_set_members(paldwosk_barrier *barrier, uint64_t phase) {
  for (size_t at = 0; at < PALDWOSKI_MEMBER_PLACES; at++)
    if (barrier->members[at].is_there) barrier->members[at].passes = phase & (UINT64_MAX >> 4);
}

/* A barrier that is made slow soon after it has become fast stays so for twice as long. */
PALDWOSK_INLINE void paldwoski_set_rest(paldwosk_barrier *barrier, uint64_t phase) {
  if (phase - barrier->rounds->opened >= PALDWOSKI_MOST_REST) barrier->rest = 1;
  else if (barrier->rest < PALDWOSKI_MOST_REST) barrier->rest *= 2;
  barrier->rest_left = barrier->rest;
}

/* Counts who has come in this phase, or is about to. A thread says so before it comes. */
PALDWOSK_INLINE void paldwoski_count_untold(paldwosk_barrier *barrier, uint64_t phase) {
  struct paldwoski_rounds *rounds = barrier->rounds;
  uint32_t untold = 0;
  for (uint32_t at = 0; at < barrier->tasks; at++) {
    struct paldwoski_seat *seat = &rounds->seats[rounds->places[at]];
    seat->is_counted = __atomic_load_n(&seat->coming, __ATOMIC_ACQUIRE) == phase + 1;
    untold += seat->is_counted;
  }
  __atomic_store_n(&rounds->untold, untold, __ATOMIC_RELAXED);
}

/* With the lock, at a fast barrier. Nobody comes to a seat from the first step on: else a second thread might come to
 * one that a thread has left which was told so. The archive refuses while it makes a round, or sends: that is soon
 * over. */
PALDWOSK_INLINE void paldwoski_close_rounds(paldwosk_barrier *barrier) {
  struct paldwoski_rounds *rounds = barrier->rounds;
  uint64_t phase = 0;
  paldwoski_begin_era(barrier);
  for (uint32_t tried = 0; PALDWOSKI_ARCHIVE(phaser_c_level_close(&rounds->level, &barrier->phaser)) == PALDWOSK_NOT_YET;
       tried++)
    paldwoski_bide(tried);
  (void)phaser_c_waiting_level(&barrier->phaser, rounds->tasks, barrier->tasks, &phase);
  paldwoski_set_rest(barrier, phase);
  paldwoski_set_members(barrier, phase);
  paldwoski_count_untold(barrier, phase);
  paldwoski_wake_seats(barrier);
}

/* With the lock, which it gives back until fewer are untold. None is added while this thread is among the held. */
PALDWOSK_INLINE void paldwoski_await_told(paldwosk_barrier *barrier) {
  uint32_t *untold = &barrier->rounds->untold, seen = *untold;
  pthread_mutex_unlock(&barrier->lock);
  for (uint32_t tried = 0; tried < PALDWOSKI_LOCK_TRIES && __atomic_load_n(untold, __ATOMIC_RELAXED) == seen; tried++)
    paldwoski_pause();
  if (__atomic_load_n(untold, __ATOMIC_RELAXED) == seen) paldwoski_futex(untold, 0, seen, UINT32_MAX);
  paldwoski_lock(barrier);
}

/* With the lock: makes the barrier slow. Until all who had come have told their calls it gives the lock back. */
PALDWOSK_INLINE void paldwoski_go_slow(paldwosk_barrier *barrier) {
  struct paldwoski_rounds *rounds = barrier->rounds;
  if (!paldwoski_is_slow(barrier)) paldwoski_close_rounds(barrier);
  rounds->held++;
  while (rounds->untold) paldwoski_await_told(barrier);
  rounds->held--;
}

/* With the lock: this thread had come, and is about to tell its call. The last wakes those who wait for that. */
PALDWOSK_INLINE void paldwoski_uncount(const paldwosk_task *task) {
  struct paldwoski_rounds *rounds = task->barrier->rounds;
  struct paldwoski_seat *seat = paldwoski_seat_of(task);
  if (!seat) return;
  __atomic_store_n(&seat->coming, 0, __ATOMIC_RELAXED);
  if (!seat->is_counted) return;
  seat->is_counted = 0;
  __atomic_store_n(&rounds->untold, rounds->untold - 1, __ATOMIC_RELAXED);
  if (!rounds->untold && rounds->held) paldwoski_futex(&rounds->untold, 1, INT_MAX, UINT32_MAX);
}

/* With the lock, at a slow barrier: waits until nobody is at the task's seat, and nobody comes there until the lock is
 * given back. The phaser is told what the task keeps. */
PALDWOSK_INLINE void paldwoski_empty_seat(const paldwosk_task *task) {
  struct paldwoski_seat *seat = paldwoski_seat_of(task);
  uint8_t index = 0;
  int32_t value = 0;
  if (!seat) return;
  for (uint32_t tried = 0; !paldwoski_is_left(seat); tried++) paldwoski_bide(tried);
  if (!seat->level.held) return;
  if (PALDWOSKI_ARCHIVE(phaser_c_level_kept(&seat->level, &index, &value)) == PALDWOSK_DONE)
    (void)phaser_c_waiting_send(&task->barrier->phaser, task->number, index, value);
  paldwoski_free_level(&seat->level);
}

/* With the lock: makes the barrier slow, for a call of this task. */
PALDWOSK_INLINE void paldwoski_settle(const paldwosk_task *task) {
  paldwoski_go_slow(task->barrier);
  paldwoski_empty_seat(task);
}

/* ---- From slow to fast */

/* Whether the tasks may stand level, as far as the header knows; the phaser is asked then. */
PALDWOSK_INLINE int paldwoski_may_be_level(const paldwosk_barrier *barrier) {
  const struct paldwoski_rounds *rounds = barrier->rounds;
  return !barrier->first && !barrier->overdue && !barrier->coming && !barrier->uneven && barrier->tasks &&
         !barrier->trace && !barrier->watch && !rounds->untold && !rounds->held;
}

/* Takes a handle for each task. Whether there was memory for all. */
PALDWOSK_INLINE int paldwoski_give_handles(paldwosk_barrier *barrier) {
  struct paldwoski_rounds *rounds = barrier->rounds;
  for (uint32_t at = 0; at < barrier->tasks; at++) {
    paldwosk_level_task *given = &rounds->seats[rounds->places[at]].given;
    paldwoski_free_level(given);
    if (PALDWOSKI_ARCHIVE(phaser_c_level_take(&rounds->level, given)) != PALDWOSK_DONE) return 0;
  }
  return 1;
}

/* With the lock, at a slow barrier: makes it fast if all stand level, and have often enough, and there is memory. */
PALDWOSK_INLINE void paldwoski_open_rounds(paldwosk_barrier *barrier) {
  struct paldwoski_rounds *rounds = barrier->rounds;
  if (!paldwoski_may_be_level(barrier)) return;
  if (barrier->rest_left > 1) {
    barrier->rest_left--;
    return;
  }
  const uint64_t *tasks = rounds->tasks;
  if (PALDWOSKI_ARCHIVE(phaser_c_level_open(&rounds->level, &barrier->phaser, tasks, barrier->tasks)) != PALDWOSK_DONE)
    return;
  if (!paldwoski_give_handles(barrier)) {
    (void)PALDWOSKI_ARCHIVE(phaser_c_level_close(&rounds->level, &barrier->phaser));
    return;
  }
  rounds->opened = paldwoski_member_of(barrier, rounds->tasks[0])->passes;
  paldwoski_begin_era(barrier);
}

/* With the lock, which is about to be given back. */
PALDWOSK_INLINE void paldwoski_end_hold(paldwosk_barrier *barrier) {
  if (paldwoski_is_slow(barrier)) paldwoski_open_rounds(barrier);
}

/* ---- What a task does at its seat */

/* Whether the value was sent by the task's seat; then the send is answered. */
PALDWOSK_INLINE int paldwoski_send_at_seat(const paldwosk_task *task, uint8_t index, int32_t value,
                                           paldwosk_answer *answer) {
  struct paldwoski_seat *seat = paldwoski_enter_seat(task);
  if (!seat) return 0;
  uint32_t sent = paldwoski_send_by(task->barrier->rounds, seat, index, value);
  paldwoski_leave_seat(seat);
  if (sent != PALDWOSK_NOT_YET) *answer = (paldwosk_answer)sent;
  return sent != PALDWOSK_NOT_YET;
}

/* The same of a look. */
PALDWOSK_INLINE int paldwoski_look_at_seat(const paldwosk_task *task, uint8_t index, int64_t *value,
                                           paldwosk_answer *answer) {
  struct paldwoski_seat *seat = paldwoski_enter_seat(task);
  if (!seat) return 0;
  uint32_t looked = paldwoski_look_by(task->barrier->rounds, seat, index, value);
  paldwoski_leave_seat(seat);
  if (looked != PALDWOSK_NOT_YET) *answer = (paldwosk_answer)looked;
  return looked != PALDWOSK_NOT_YET;
}

/* The task has come, and others haven't. It spins, yields and sleeps until the archive lets it go, or the barrier is
 * slow. */
PALDWOSK_INLINE uint32_t paldwoski_wait_at_seat(paldwosk_barrier *barrier, struct paldwoski_seat *seat) {
  uint64_t task = __atomic_load_n(&seat->task, __ATOMIC_RELAXED);
  struct paldwoski_sleeper me = paldwoski_new_sleeper(task, PALDWOSKI_CALL_NEXT, 0);
  me.level = &seat->level;
  if (paldwoski_is_over(&me)) return me.answer;
  me.patience = paldwoski_patience(barrier, &me, &seat->tries);
  me.yields = paldwoski_yields(barrier);
  paldwoski_spin(barrier, &me);
  if (paldwoski_is_over(&me)) return me.answer;
  __atomic_fetch_add(&barrier->rounds->sleepers, 1, __ATOMIC_SEQ_CST);
  paldwoski_sleep(barrier, &me);
  __atomic_fetch_sub(&barrier->rounds->sleepers, 1, __ATOMIC_SEQ_CST);
  return me.answer;
}

/* The task comes. The last wakes the others. */
PALDWOSK_INLINE uint32_t paldwoski_come(paldwosk_barrier *barrier, struct paldwoski_seat *seat) {
  __atomic_store_n(&seat->coming, seat->phase + 1, __ATOMIC_RELEASE);
  paldwoski_release(&barrier->rounds->level);
  uint32_t answer = PALDWOSKI_ARCHIVE(phaser_c_level_come(&seat->level));
  if (answer == PALDWOSK_DONE) paldwoski_wake_seats(barrier);
  return answer;
}

/* The thread knows of the outcome. If that is CLOSED its call isn't told yet, and it still counts as coming. */
PALDWOSK_INLINE void paldwoski_end_coming(paldwosk_barrier *barrier, struct paldwoski_seat *seat, uint32_t answer) {
  if (answer == PALDWOSK_CLOSED) return;
  if (answer == PALDWOSK_DONE) paldwoski_acquire(&barrier->rounds->level);
  if (answer == PALDWOSK_DONE) seat->phase++;
  __atomic_store_n(&seat->coming, 0, __ATOMIC_RELEASE);
}

enum { PALDWOSKI_NOT_MADE = 999 }; /* no answer of the archive's */

/* A next by the task's seat. NOT_MADE: the barrier is slow, or another is at the seat. CLOSED: it was made slow after
 * the task had come. Else it is what the next is answered. */
PALDWOSK_INLINE uint32_t paldwoski_next_at_seat(const paldwosk_task *task, uint64_t *phase) {
  struct paldwoski_seat *seat = paldwoski_enter_seat(task);
  if (!seat) return PALDWOSKI_NOT_MADE;
  uint64_t stood = seat->phase;
  uint32_t answer = paldwoski_come(task->barrier, seat);
  if (answer == PALDWOSK_NOT_YET) answer = paldwoski_wait_at_seat(task->barrier, seat);
  paldwoski_end_coming(task->barrier, seat, answer);
  paldwoski_leave_seat(seat);
  if (answer == PALDWOSK_DONE && phase) *phase = stood;
  return answer;
}

/* With the lock: whether another task joins by the task's seat, and stands where that does. If it can't, or there is no
 * memory, the phaser is to be asked. */
PALDWOSK_INLINE int paldwoski_join_at_seat(const paldwosk_task *parent, uint32_t place) {
  struct paldwoski_rounds *rounds = parent->barrier->rounds;
  struct paldwoski_seat *seat = place == PALDWOSKI_NO_SEAT ? NULL : paldwoski_claim_seat(parent);
  uint32_t answer = PALDWOSK_NOT_YET;
  if (!seat) return 0;
  struct paldwoski_seat *other = &rounds->seats[place];
  for (uint32_t tried = 0; answer == PALDWOSK_NOT_YET && tried < PALDWOSKI_MOST_ASKED; tried++) {
    if (tried) paldwoski_bide(tried);
    answer = PALDWOSKI_ARCHIVE(phaser_c_level_join(&seat->level, &other->level));
  }
  if (answer == PALDWOSK_DONE) other->era = seat->era;
  if (answer == PALDWOSK_DONE) other->phase = seat->phase;
  paldwoski_leave_seat(seat);
  return answer == PALDWOSK_DONE;
}

/* With the lock: whether the task leaves by its seat, and isn't the last. Then those are let go for whom it was
 * missing. If the history is full they aren't. */
PALDWOSK_INLINE int paldwoski_leave_at_seat(const paldwosk_task *task) {
  paldwosk_barrier *barrier = task->barrier;
  struct paldwoski_seat *seat = barrier->tasks == 1 ? NULL : paldwoski_claim_seat(task);
  uint32_t answer = PALDWOSK_NOT_YET;
  if (!seat) return 0;
  paldwoski_release(&barrier->rounds->level);
  for (uint32_t tried = 0; answer == PALDWOSK_NOT_YET && tried < PALDWOSKI_MOST_ASKED; tried++) {
    if (tried) paldwoski_bide(tried);
    answer = PALDWOSKI_ARCHIVE(phaser_c_level_leave(&seat->level));
  }
  int has_left = answer == PALDWOSK_DONE || answer == PALDWOSK_HISTORY_FULL;
  if (has_left) paldwoski_remove_task(barrier, task->number);
  if (has_left) paldwoski_wake_seats(barrier);
  paldwoski_leave_seat(seat);
  return has_left;
}

/* ---- Making and freeing rounds */

PALDWOSK_INLINE int paldwoski_new_rounds(paldwosk_barrier *barrier) {
  barrier->rounds_memory = calloc(1, sizeof *barrier->rounds + PALDWOSKI_LINE);
  uintptr_t first = ((uintptr_t)barrier->rounds_memory + PALDWOSKI_LINE - 1) / PALDWOSKI_LINE * PALDWOSKI_LINE;
  barrier->rounds = (struct paldwoski_rounds *)first;
  return barrier->rounds_memory != NULL;
}

PALDWOSK_INLINE void paldwoski_free_rounds(paldwosk_barrier *barrier) {
  struct paldwoski_rounds *rounds = barrier->rounds;
  for (int at = 0; rounds && at < PALDWOSKI_MOST_MEMBERS; at++) {
    paldwoski_free_level(&rounds->seats[at].level);
    paldwoski_free_level(&rounds->seats[at].given);
  }
  if (rounds) paldwoski_drop_level(&rounds->level);
  free(barrier->rounds_memory);
  barrier->rounds_memory = NULL;
  barrier->rounds = NULL;
}

/* Their memory is of nulls. The barrier is slow until it has a task. */
PALDWOSK_INLINE void paldwoski_open_seats(paldwosk_barrier *barrier) {
  barrier->uneven = 0;
  barrier->rest = barrier->rest_left = 1;
  for (int at = 0; at < PALDWOSKI_MOST_MEMBERS; at++) barrier->rounds->seats[at].task = PALDWOSKI_NOBODY;
}

PALDWOSK_INLINE uint64_t paldwoski_next_number(const paldwosk_barrier *barrier) { return barrier->rounds->next_task; }

#else

PALDWOSK_INLINE void paldwoski_end_hold(paldwosk_barrier *barrier) { (void)barrier; }
PALDWOSK_INLINE void paldwoski_go_slow(paldwosk_barrier *barrier) { (void)barrier; }
PALDWOSK_INLINE void paldwoski_settle(const paldwosk_task *task) { (void)task; }
PALDWOSK_INLINE int paldwoski_can_come(const paldwosk_task *task) { return (void)task, 0; }

PALDWOSK_INLINE int paldwoski_send_at_seat(const paldwosk_task *task, uint8_t index, int32_t value,
                                           paldwosk_answer *answer) {
  return (void)task, (void)index, (void)value, (void)answer, 0;
}

PALDWOSK_INLINE int paldwoski_look_at_seat(const paldwosk_task *task, uint8_t index, int64_t *value,
                                           paldwosk_answer *answer) {
  return (void)task, (void)index, (void)value, (void)answer, 0;
}

PALDWOSK_INLINE int paldwoski_join_at_seat(const paldwosk_task *parent, uint32_t place) {
  return (void)parent, (void)place, 0;
}

PALDWOSK_INLINE int paldwoski_leave_at_seat(const paldwosk_task *task) { return (void)task, 0; }

PALDWOSK_INLINE void paldwoski_add_seat(paldwosk_barrier *barrier, uint64_t number, uint32_t place) {
  (void)barrier, (void)number, (void)place;
}

PALDWOSK_INLINE uint32_t paldwoski_free_place(const paldwosk_barrier *barrier) { return (void)barrier, 0; }
PALDWOSK_INLINE uint64_t paldwoski_next_number(const paldwosk_barrier *barrier) { return (void)barrier, 0; }

PALDWOSK_INLINE void paldwoski_remove_task(paldwosk_barrier *barrier, uint64_t number) {
  paldwoski_remove_member(barrier, number);
}

PALDWOSK_INLINE int paldwoski_are_seats_left(const paldwosk_barrier *barrier) { return (void)barrier, 1; }
PALDWOSK_INLINE int paldwoski_new_rounds(paldwosk_barrier *barrier) { return (void)barrier, 1; }
PALDWOSK_INLINE void paldwoski_free_rounds(paldwosk_barrier *barrier) { (void)barrier; }
PALDWOSK_INLINE void paldwoski_open_seats(paldwosk_barrier *barrier) { (void)barrier; }

#endif

/* ---- Giving the lock back */

#ifdef PALDWOSKI_BY_FUTEX

/* Gives the lock back, and wakes the threads that the call has freed. After the unlock only threads that
 * are counted as inside read the barrier; a thread's last access takes it off that count. */
PALDWOSK_INLINE void paldwoski_unlock(paldwosk_barrier *barrier) {
  uint32_t bits = barrier->to_wake;
  barrier->to_wake = 0;
  if (bits) __atomic_fetch_add(&barrier->inside, 1, __ATOMIC_RELAXED);
  if (bits) paldwoski_raise_turn(barrier);
  paldwoski_end_hold(barrier);
  pthread_mutex_unlock(&barrier->lock);
  if (!bits) return;
  paldwoski_futex(&barrier->turn, 1, INT_MAX, bits);
  __atomic_fetch_sub(&barrier->inside, 1, __ATOMIC_RELEASE);
}

/* The same, and it waits until the call itself is over. */
PALDWOSK_INLINE void paldwoski_unlock_and_wait(paldwosk_barrier *barrier, struct paldwoski_sleeper *me) {
  paldwoski_unlock(barrier);
  if (!me->is_parked) return;
  paldwoski_spin(barrier, me);
  paldwoski_sleep(barrier, me);
  __atomic_fetch_sub(&barrier->inside, 1, __ATOMIC_RELEASE);
}

#else

/* Wakes the threads that the call has freed, and gives the lock back. */
PALDWOSK_INLINE void paldwoski_unlock(paldwosk_barrier *barrier) {
  if (barrier->to_wake) pthread_cond_broadcast(&barrier->turned);
  barrier->to_wake = 0;
  pthread_mutex_unlock(&barrier->lock);
}

/* The same, and before it gives the lock back it waits until the call itself is over. */
PALDWOSK_INLINE void paldwoski_unlock_and_wait(paldwosk_barrier *barrier, struct paldwoski_sleeper *me) {
  if (barrier->to_wake) pthread_cond_broadcast(&barrier->turned);
  barrier->to_wake = 0;
  if (me->is_parked) paldwoski_sleep(barrier, me);
  if (me->is_parked) __atomic_fetch_sub(&barrier->inside, 1, __ATOMIC_RELAXED);
  pthread_mutex_unlock(&barrier->lock);
}

#endif

PALDWOSKI_APART void paldwoski_ask_to_leave(paldwosk_barrier *barrier, struct paldwoski_sleeper *me) {
  paldwosk_freed freed[PALDWOSK_MOST_FREED];
  size_t count = 0;
  me->answer = phaser_c_waiting_leave(&barrier->phaser, me->task, freed, PALDWOSK_MOST_FREED, &count);
  if (me->answer == PALDWOSK_DONE) paldwoski_remove_task(barrier, me->task);
  if (me->answer == PALDWOSK_DONE && barrier->trace) paldwoski_trace_left(barrier->trace, me->task);
  paldwoski_free_those(barrier, freed, count);
  if (me->answer == PALDWOSK_DONE) paldwoski_end_overdue(barrier, me->task);
}

/* ---- Waits that have a time. One that is watched sleeps until it is to be told of, and then as long as it has to. */

enum { PALDWOSKI_MOST_TOLD = 16, PALDWOSKI_LINE_ROOM = 2048 }; /* sixteen tasks of each kind take less than 1,400 bytes */

#ifdef PALDWOSKI_BY_FUTEX

/* Gives the lock back, spins, sleeps until the call is over or the time has come, and takes the lock again. The turn is
 * read before the state, as in paldwoski_sleep. */
PALDWOSK_INLINE void paldwoski_sleep_until(paldwosk_barrier *barrier, struct paldwoski_sleeper *me,
                                           const struct timespec *until) {
  enum { WAIT_BITSET = 9, IS_PRIVATE = 128 };
  uint32_t *word = &barrier->turn;
  long slept = 0;
  paldwoski_unlock(barrier);
  paldwoski_spin(barrier, me);
  do {
    uint32_t seen = paldwoski_turn(barrier);
    if (paldwoski_is_ready(me)) break;
    slept = syscall(PALDWOSKI_TIMED_FUTEX, word, WAIT_BITSET | IS_PRIVATE, seen, until, NULL, paldwoski_bit(me->task));
  } while (slept == 0 || errno != ETIMEDOUT);
  paldwoski_lock(barrier);
  me->patience = me->yields = 0; /* it has spun */
}

#else

PALDWOSK_INLINE void paldwoski_sleep_until(paldwosk_barrier *barrier, struct paldwoski_sleeper *me,
                                           const struct timespec *until) {
  int slept = 0;
  if (barrier->to_wake) pthread_cond_broadcast(&barrier->turned);
  barrier->to_wake = 0;
  paldwoski_yield(barrier, me);
  me->yields = 0;
  while (slept == 0 && !paldwoski_is_ready(me)) slept = pthread_cond_timedwait(&barrier->turned, &barrier->lock, until);
}

#endif

/* Names a task in a list, after so many others. Whether it did: the list is cut. */
PALDWOSK_INLINE int paldwoski_text_task(struct paldwoski_text *line, size_t before, uint64_t task) {
  if (before >= PALDWOSKI_MOST_TOLD) return 0;
  paldwoski_text_word(line, before ? ", " : " ");
  paldwoski_text_number(line, (int64_t)task);
  return 1;
}

PALDWOSK_INLINE void paldwoski_text_more(struct paldwoski_text *line, size_t count) {
  if (count <= PALDWOSKI_MOST_TOLD) return;
  paldwoski_text_word(line, " and ");
  paldwoski_text_number(line, (int64_t)(count - PALDWOSKI_MOST_TOLD));
  paldwoski_text_word(line, " more");
}

PALDWOSK_INLINE void paldwoski_text_waiting(struct paldwoski_text *line, paldwosk_barrier *barrier) {
  size_t count = 0;
  paldwoski_text_word(line, "; waiting:");
  for (struct paldwoski_sleeper *at = barrier->first; at; at = at->next) {
    if (!paldwoski_text_task(line, count++, at->task)) continue;
    paldwoski_text_word(line, " (phase ");
    paldwoski_text_number(line, (int64_t)paldwoski_member_of(barrier, at->task)->passes);
    paldwoski_text_word(line, ")");
  }
  paldwoski_text_more(line, count);
}

PALDWOSK_INLINE void paldwoski_text_missing(struct paldwoski_text *line, paldwosk_barrier *barrier) {
  uint64_t missing[PALDWOSKI_MOST_MEMBERS];
  size_t count = paldwoski_find_missing(barrier, missing);
  paldwoski_text_word(line, "; missing:");
  for (size_t at = 0; at < count; at++) paldwoski_text_task(line, at, missing[at]);
  paldwoski_text_more(line, count);
}

/* Writes the line about a wait. Others may have the lock meanwhile: standard error may be slow. */
PALDWOSKI_APART void paldwoski_tell_wait(paldwosk_barrier *barrier, const struct paldwoski_sleeper *me) {
  char room[PALDWOSKI_LINE_ROOM];
  struct paldwoski_text line = {room, 0, 0, NULL};
  paldwoski_text_word(&line, "paldwosk: task ");
  paldwoski_text_number(&line, (int64_t)me->task);
  paldwoski_text_word(&line, " waits for more than ");
  paldwoski_text_number(&line, barrier->watch);
  paldwoski_text_word(&line, " s");
  paldwoski_text_waiting(&line, barrier);
  paldwoski_text_missing(&line, barrier);
  paldwoski_text_word(&line, "\n");
  pthread_mutex_unlock(&barrier->lock);
  ssize_t written = write(STDERR_FILENO, room, line.length);
  (void)written; /* there is nobody to tell that it failed */
  paldwoski_lock(barrier);
}

/* It sleeps at once, and counts as asleep, so others wake it. Writing and a timed wait would be cancellation points. */
PALDWOSK_INLINE void paldwoski_watch(paldwosk_barrier *barrier, struct paldwoski_sleeper *me) {
  struct timespec until = paldwoski_after(1000 * barrier->watch);
  int old = 0, kept = errno;
  me->patience = me->yields = 0;
  pthread_setcancelstate(PTHREAD_CANCEL_DISABLE, &old);
  paldwoski_sleep_until(barrier, me, &until);
  if (!paldwoski_is_ready(me)) paldwoski_tell_wait(barrier, me);
  pthread_setcancelstate(old, &old);
  errno = kept;
}

/* Waits for so many milliseconds at most. It spins no longer than a barrier does that nobody has set. */
PALDWOSK_INLINE void paldwoski_wait_in_time(paldwosk_barrier *barrier, struct paldwoski_sleeper *me,
                                            uint32_t milliseconds) {
  struct timespec until = paldwoski_after(milliseconds);
  int old = 0, kept = errno;
  if (me->patience > PALDWOSK_MOST_PAUSES) me->patience = PALDWOSK_MOST_PAUSES;
  pthread_setcancelstate(PTHREAD_CANCEL_DISABLE, &old);
  if (barrier->watch && 1000 * barrier->watch < milliseconds) paldwoski_watch(barrier, me);
  if (!paldwoski_is_ready(me)) paldwoski_sleep_until(barrier, me, &until);
  pthread_setcancelstate(old, &old);
  errno = kept;
}

/* After how many seconds a wait is told of; 0 if it never is. */
PALDWOSK_INLINE uint32_t paldwoski_watch_of_environment(void) {
  const char *words = getenv("PALDWOSK_WATCH");
  unsigned long seconds = words ? strtoul(words, NULL, 10) : 0;
  return seconds < 86400 ? (uint32_t)seconds : 86400;
}

/* The call's own part is done. Sleepers that are still to ask do so. */
PALDWOSK_INLINE void paldwoski_let_ask(paldwosk_barrier *barrier) {
  struct paldwoski_sleeper *sleeper;
  while (barrier->trace && (sleeper = paldwoski_take_asking(barrier))) paldwoski_ask_for(barrier, sleeper);
}

/* They do so, the lock is given back, and it waits if it must. */
PALDWOSK_INLINE void paldwoski_end_call(paldwosk_barrier *barrier, struct paldwoski_sleeper *me) {
  paldwoski_let_ask(barrier);
  if (barrier->watch && me->is_parked) paldwoski_watch(barrier, me);
  paldwoski_unlock_and_wait(barrier, me);
}

/* The same, but it waits for so many milliseconds at most. */
PALDWOSK_INLINE void paldwoski_end_in_time(paldwosk_barrier *barrier, struct paldwoski_sleeper *me,
                                           uint32_t milliseconds) {
  paldwoski_let_ask(barrier);
  if (milliseconds && me->is_parked && !paldwoski_is_ready(me)) paldwoski_wait_in_time(barrier, me, milliseconds);
  if (me->is_parked && !paldwoski_is_ready(me)) paldwoski_go_overdue(barrier, me);
  paldwoski_unlock_and_wait(barrier, me);
}

PALDWOSK_INLINE void paldwoski_begin_call(paldwosk_barrier *barrier, struct paldwoski_sleeper *me) {
  me->is_to_ask = barrier->trace != NULL;
  me->is_to_pass = me->call == PALDWOSKI_CALL_WAIT;
  if (barrier->trace) paldwoski_park(barrier, me);
  else paldwoski_ask_and_free(barrier, me);
}

/* ---- Who may enter */

#ifdef __cplusplus
#define PALDWOSKI_OF_HEADER inline
#else
#define PALDWOSKI_OF_HEADER static
#endif

PALDWOSKI_OF_HEADER uint32_t paldwoski_forks; /* atomic: how many forks lie above this process since its first use */
PALDWOSKI_OF_HEADER int paldwoski_are_forks_missed;
PALDWOSKI_OF_HEADER pthread_once_t paldwoski_forks_once = PTHREAD_ONCE_INIT;

PALDWOSK_INLINE void paldwoski_count_fork(void) { __atomic_fetch_add(&paldwoski_forks, 1, __ATOMIC_RELAXED); }

PALDWOSK_INLINE void paldwoski_watch_forks(void) {
  paldwoski_are_forks_missed = pthread_atfork(NULL, NULL, paldwoski_count_fork) != 0;
}

PALDWOSK_INLINE int paldwoski_is_inherited(const paldwosk_barrier *barrier) {
  return __atomic_load_n(barrier->forks, __ATOMIC_RELAXED) != barrier->forks_then;
}

PALDWOSK_INLINE paldwosk_answer paldwoski_may_enter(const paldwosk_barrier *barrier) {
  if (!barrier) return PALDWOSK_NULL;
  return !barrier->forks || paldwoski_is_inherited(barrier) ? PALDWOSK_CLOSED : PALDWOSK_DONE;
}

/* Takes the lock if it answers DONE. At a fast barrier tasks may come meanwhile. */
PALDWOSK_INLINE paldwosk_answer paldwoski_enter(paldwosk_barrier *barrier) {
  paldwosk_answer answer = paldwoski_may_enter(barrier);
  if (answer != PALDWOSK_DONE) return answer;
  paldwoski_lock(barrier);
  return PALDWOSK_DONE;
}

PALDWOSK_INLINE paldwosk_answer paldwoski_enter_by(const paldwosk_task *task) {
  return task ? paldwoski_enter(task->barrier) : PALDWOSK_NULL;
}

/* For a call that wasn't made at the task's seat. Whether it can be now; else the thread has the lock. */
PALDWOSK_INLINE int paldwoski_is_fetched(const paldwosk_task *task) {
  paldwoski_lock(task->barrier);
  if (!paldwoski_can_come(task)) return 0;
  paldwoski_unlock(task->barrier);
  return 1;
}

/* With the lock. A task passes once its running single is reported: a wait in the statement would never end. */
PALDWOSK_INLINE int paldwoski_is_in_single(const paldwosk_task *task) {
  return task->barrier->coming && task->barrier->claimer == task->number;
}

/* With the lock: begins a call that may have to wait, or goes on with the task's overdue call. */
PALDWOSK_INLINE void paldwoski_begin_or_go_on(const paldwosk_task *task, struct paldwoski_sleeper *me) {
  paldwosk_barrier *barrier = task->barrier;
  if (barrier->overdue && *paldwoski_overdue_of(barrier, me->task)) paldwoski_go_on_overdue(barrier, me);
  else if (me->call == PALDWOSKI_CALL_WAIT && paldwoski_is_in_single(task)) me->answer = PALDWOSK_NOT_NOW;
  else paldwoski_begin_call(barrier, me);
}

/* The call of a settled task that may have to wait, with the lock, which it gives back. */
PALDWOSK_INLINE paldwosk_answer paldwoski_call_settled(const paldwosk_task *task, uint32_t call, uint32_t single,
                                                       uint64_t *phase) {
  struct paldwoski_sleeper me = paldwoski_new_sleeper(task->number, call, single);
  paldwoski_begin_or_go_on(task, &me);
  paldwoski_end_call(task->barrier, &me);
  if (me.answer == PALDWOSK_DONE && phase) *phase = me.number;
  return (paldwosk_answer)me.answer;
}

/* The call of a task that may have to wait. */
PALDWOSK_INLINE paldwosk_answer paldwoski_call_by(const paldwosk_task *task, uint32_t call, uint32_t single,
                                                  uint64_t *phase) {
  paldwosk_answer entered = paldwoski_enter_by(task);
  if (entered != PALDWOSK_DONE) return entered;
  paldwoski_settle(task);
  return paldwoski_call_settled(task, call, single, phase);
}

#ifdef PALDWOSKI_IN_ROUNDS
/* A next: by the task's seat, or with the lock if the barrier is slow. It may be fast again once this thread has the
 * lock. A thread that had come tells its call in any case: it doesn't wait for others that had, since these may wait
 * for it. */
PALDWOSK_INLINE paldwosk_answer paldwoski_next_by(const paldwosk_task *task, uint64_t *phase) {
  for (;;) {
    paldwosk_answer entered = task ? paldwoski_may_enter(task->barrier) : PALDWOSK_NULL;
    if (entered != PALDWOSK_DONE) return entered;
    uint32_t answer = paldwoski_next_at_seat(task, phase);
    if (answer != PALDWOSKI_NOT_MADE && answer != PALDWOSK_CLOSED) return (paldwosk_answer)answer;
    paldwoski_lock(task->barrier);
    if (answer == PALDWOSK_CLOSED) paldwoski_uncount(task);
    if (!paldwoski_can_come(task)) {
      if (answer == PALDWOSK_CLOSED && paldwoski_is_slow(task->barrier)) paldwoski_empty_seat(task);
      else paldwoski_settle(task);
      return paldwoski_call_settled(task, PALDWOSKI_CALL_NEXT, 0, phase);
    }
    paldwoski_unlock(task->barrier);
  }
}
#endif

/* The call of a task that may have to wait, for so many milliseconds at most. */
PALDWOSKI_APART paldwosk_answer paldwoski_call_in_time(const paldwosk_task *task, uint32_t call, uint32_t single,
                                                       uint32_t milliseconds, uint64_t *phase) {
  paldwosk_answer entered = paldwoski_enter_by(task);
  if (entered != PALDWOSK_DONE) return entered;
  struct paldwoski_sleeper me = paldwoski_new_sleeper(task->number, call, single);
  paldwoski_settle(task);
  paldwoski_begin_or_go_on(task, &me);
  paldwoski_end_in_time(task->barrier, &me, milliseconds);
  if (me.answer == PALDWOSK_DONE && phase) *phase = me.number;
  return (paldwosk_answer)me.answer;
}

/* With the lock: adds a task that the phaser has registered, at this seat. */
PALDWOSK_INLINE paldwosk_task paldwoski_new_task(paldwosk_barrier *barrier, uint64_t parent, uint32_t mode,
                                                 uint64_t number, uint32_t place) {
  paldwosk_task task = {barrier, number, place};
  if (barrier->trace) paldwoski_trace_new_task(barrier->trace, parent, mode, number);
  paldwoski_add_member(barrier, parent, mode, number);
  paldwoski_add_seat(barrier, number, place);
  return task;
}

/* With the lock: another task joins by this one, by its seat if that can be, and is added. */
PALDWOSK_INLINE paldwosk_answer paldwoski_join(const paldwosk_task *parent, uint32_t mode, paldwosk_task *task) {
  paldwosk_barrier *barrier = parent->barrier;
  uint32_t place = paldwoski_free_place(barrier);
  uint64_t number = paldwoski_next_number(barrier);
  if (mode != PALDWOSK_SIG_WAIT || !paldwoski_join_at_seat(parent, place)) {
    paldwoski_settle(parent);
    uint32_t answer = phaser_c_waiting_register(&barrier->phaser, parent->number, mode, &number);
    if (answer != PALDWOSK_DONE) return (paldwosk_answer)answer;
    place = paldwoski_free_place(barrier);
  }
  *task = paldwoski_new_task(barrier, parent->number, mode, number, place);
  return PALDWOSK_DONE;
}

/* The task that has run its single reports that, and passes. */
PALDWOSK_INLINE paldwosk_answer paldwoski_report_by(const paldwosk_task *task, uint64_t *phase) {
  paldwosk_answer entered = paldwoski_enter_by(task);
  if (entered != PALDWOSK_DONE) return entered;
  struct paldwoski_sleeper me = paldwoski_new_sleeper(task->number, PALDWOSKI_CALL_WAIT, 0);
  task->barrier->coming--;
  paldwoski_report(task->barrier, &me);
  if (me.answer == PALDWOSK_DONE) paldwoski_begin_call(task->barrier, &me);
  paldwoski_end_call(task->barrier, &me);
  if (me.answer == PALDWOSK_DONE && phase) *phase = me.number;
  return (paldwosk_answer)me.answer;
}

/* What a single was answered. If the task has claimed it, it runs the statement. */
PALDWOSK_INLINE paldwosk_answer paldwoski_run_claimed(const paldwosk_task *task, paldwosk_answer answer,
                                                      void (*run)(void *data), void *data, uint64_t *phase) {
  int old = 0;
  if (answer != PALDWOSK_CLAIMED) return answer;
  pthread_setcancelstate(PTHREAD_CANCEL_DISABLE, &old);
  run(data);
  pthread_setcancelstate(old, &old);
  return paldwoski_report_by(task, phase);
}

/* ---- Making and freeing */

PALDWOSK_INLINE struct paldwoski_trace *paldwoski_new_trace(uint32_t bound, const uint32_t *operators, size_t count) {
  struct paldwoski_trace *trace = (struct paldwoski_trace *)calloc(1, sizeof *trace);
  if (!trace) return NULL;
  trace->bound = bound;
  trace->room = PALDWOSKI_TRACE_EVENTS;
  trace->operator_count = (uint32_t)count;
  for (size_t at = 0; at < count; at++) trace->operators[at] = operators[at];
  return trace;
}

#ifndef PALDWOSKI_BY_FUTEX
/* Timed waits at it are by the clock of paldwoski_now. */
PALDWOSK_INLINE int paldwoski_init_cond(pthread_cond_t *cond) {
#ifdef __linux__
  pthread_condattr_t by;
  if (pthread_condattr_init(&by) != 0) return 0;
  int is_made = pthread_condattr_setclock(&by, PALDWOSKI_CLOCK) == 0 && pthread_cond_init(cond, &by) == 0;
  pthread_condattr_destroy(&by);
  return is_made;
#else
  return pthread_cond_init(cond, NULL) == 0;
#endif
}
#endif

PALDWOSK_INLINE int paldwoski_init_lock(paldwosk_barrier *barrier) {
  if (pthread_mutex_init(&barrier->lock, NULL) != 0) return 0;
#ifndef PALDWOSKI_BY_FUTEX
  if (!paldwoski_init_cond(&barrier->turned)) {
    pthread_mutex_destroy(&barrier->lock);
    return 0;
  }
#endif
  return 1;
}

PALDWOSK_INLINE void paldwoski_destroy_lock(paldwosk_barrier *barrier) {
#ifndef PALDWOSKI_BY_FUTEX
  pthread_cond_destroy(&barrier->turned);
#endif
  pthread_mutex_destroy(&barrier->lock);
}

/* What a barrier has besides its phaser, its trace and its lock. */
PALDWOSK_INLINE void paldwoski_open(paldwosk_barrier *barrier) {
  long processors = sysconf(_SC_NPROCESSORS_ONLN);
  barrier->to_wake = barrier->coming = barrier->tasks = barrier->tries.waits = 0;
  barrier->inside = barrier->pauses = 0;
  barrier->tries.probe = barrier->probe_after = PALDWOSKI_PROBE_AFTER;
  barrier->processors = processors > 0 ? (uint32_t)processors : 1;
  barrier->most_pauses = PALDWOSK_MOST_PAUSES;
  barrier->watch = paldwoski_watch_of_environment();
  barrier->credit = PALDWOSKI_MOST_CREDIT;
  barrier->first = NULL;
  barrier->last = &barrier->first;
  barrier->overdue = NULL;
  barrier->spare = barrier->room;
  for (int at = 0; at < PALDWOSKI_MOST_MEMBERS - 1; at++) barrier->room[at].next = &barrier->room[at + 1];
  barrier->turn = 0;
  paldwoski_open_seats(barrier);
  barrier->forks_then = __atomic_load_n(&paldwoski_forks, __ATOMIC_RELAXED);
  barrier->forks = &paldwoski_forks;
}

PALDWOSK_INLINE void paldwoski_free_memory(paldwosk_barrier *barrier) {
  free(barrier->members);
  free(barrier->room);
  free(barrier->trace);
  paldwoski_free_rounds(barrier);
  barrier->members = NULL;
  barrier->room = NULL;
  barrier->trace = NULL;
}

PALDWOSK_INLINE paldwosk_answer paldwoski_new_barrier(paldwosk_barrier *barrier, uint32_t bound,
                                                      const paldwosk_operator *operators, size_t count, int is_traced) {
  uint32_t numbers[4] = {0, 0, 0, 0};
  if (!barrier || (!operators && count)) return PALDWOSK_NULL;
  if (barrier->forks) return paldwoski_is_inherited(barrier) ? PALDWOSK_CLOSED : PALDWOSK_OPEN;
  for (size_t at = 0; at < count && at < 4; at++) numbers[at] = (uint32_t)operators[at];
  if (count > 4) numbers[0] = 99; /* no operator's: refused in its turn */
  if (pthread_once(&paldwoski_forks_once, paldwoski_watch_forks) || paldwoski_are_forks_missed) return PALDWOSK_MEMORY;
  (void)phaser_c_abi_1();
  paldwosk_answer made = (paldwosk_answer)phaser_c_waiting_new(&barrier->phaser, numbers, count > 4 ? 4 : count, bound);
  if (made != PALDWOSK_DONE) return made;
  barrier->bound = bound;
  barrier->accumulators = (uint32_t)count;
  barrier->members = (struct paldwoski_member *)calloc(PALDWOSKI_MEMBER_PLACES, sizeof *barrier->members);
  barrier->room = (struct paldwoski_overdue *)calloc(PALDWOSKI_MOST_MEMBERS, sizeof *barrier->room);
  barrier->trace = is_traced ? paldwoski_new_trace(bound, numbers, count) : NULL;
  int has_room = paldwoski_new_rounds(barrier) && barrier->members && barrier->room && (barrier->trace || !is_traced);
  if (!has_room || !paldwoski_init_lock(barrier)) {
    paldwoski_free_memory(barrier);
    phaser_c_waiting_free(&barrier->phaser);
    return PALDWOSK_MEMORY;
  }
  paldwoski_open(barrier);
  return PALDWOSK_DONE;
}

/* The same if there is no barrier, whatever the memory has. */
PALDWOSK_INLINE paldwosk_answer paldwoski_init_barrier(paldwosk_barrier *barrier, uint32_t bound,
                                                       const paldwosk_operator *operators, size_t count, int is_traced) {
  static const paldwosk_barrier none = PALDWOSK_NO_BARRIER;
  if (!barrier || (!operators && count)) return PALDWOSK_NULL;
  *barrier = none;
  return paldwoski_new_barrier(barrier, bound, operators, count, is_traced);
}

/* ---- The barrier */

/* Makes a barrier in memory that was zeroed, or whose barrier was freed; paldwosk_barrier_make then makes the first
 * task. A barrier that is there and isn't freed is left as it is: that is answered OPEN. The bound is 1 to 65,536
 * phases: no task signals a phase while a waiting task hasn't passed the phase that is so many before it. If each task
 * signals and waits, a bound of 2 adds no wait; between producers and consumers the bound is the length of the queue.
 * There is an accumulator for each of at most four operators. All memory is taken here that an answer depends on. OPEN,
 * BAD_OPERATORS, BAD_BOUND, MEMORY. On DONE, free it by paldwosk_barrier_free. */
PALDWOSK_MUST_CHECK
PALDWOSK_INLINE paldwosk_answer paldwosk_barrier_new(paldwosk_barrier *barrier, uint32_t bound,
                                                     const paldwosk_operator *operators, size_t count) {
  return paldwoski_new_barrier(barrier, bound, operators, count, 0);
}

/* As paldwosk_barrier_new, and it keeps a trace of what is done, for paldwosk_barrier_trace. That takes some 1 MB. */
PALDWOSK_MUST_CHECK
PALDWOSK_INLINE paldwosk_answer paldwosk_barrier_new_traced(paldwosk_barrier *barrier, uint32_t bound,
                                                            const paldwosk_operator *operators, size_t count) {
  return paldwoski_new_barrier(barrier, bound, operators, count, 1);
}

/* As paldwosk_barrier_new, but it doesn't read the memory, as pthread_barrier_init doesn't: use it for memory of malloc.
 * It never answers OPEN: a barrier that is there already is lost, and its memory with it. If no barrier was made, the
 * other calls answer CLOSED. BAD_OPERATORS, BAD_BOUND, MEMORY.
 *
 *     paldwosk_barrier *barrier = (paldwosk_barrier *)malloc(sizeof *barrier);
 *     paldwosk_answer answer = barrier ? paldwosk_barrier_init(barrier, 2, NULL, 0) : PALDWOSK_MEMORY; */
PALDWOSK_MUST_CHECK
PALDWOSK_INLINE paldwosk_answer paldwosk_barrier_init(paldwosk_barrier *barrier, uint32_t bound,
                                                      const paldwosk_operator *operators, size_t count) {
  return paldwoski_init_barrier(barrier, bound, operators, count, 0);
}

/* As paldwosk_barrier_init, and it keeps a trace as paldwosk_barrier_new_traced does. */
PALDWOSK_MUST_CHECK
PALDWOSK_INLINE paldwosk_answer paldwosk_barrier_init_traced(paldwosk_barrier *barrier, uint32_t bound,
                                                             const paldwosk_operator *operators, size_t count) {
  return paldwoski_init_barrier(barrier, bound, operators, count, 1);
}

/* Frees the barrier. NOT_NOW if a task waits, also by a call whose time is over, or runs a single, or is to. A thread
 * that another's call has freed may still be on its way out of its own call. This call waits for it, so the memory may
 * be used for something else at once. */
PALDWOSK_MUST_CHECK
PALDWOSK_INLINE paldwosk_answer paldwosk_barrier_free(paldwosk_barrier *barrier) {
  for (uint32_t tried = 0;; tried++) {
    paldwosk_answer entered = paldwoski_enter(barrier);
    if (entered != PALDWOSK_DONE) return entered;
    paldwoski_go_slow(barrier);
    int is_busy = barrier->first || barrier->coming;
    int is_left = __atomic_load_n(&barrier->inside, __ATOMIC_ACQUIRE) == 0 && paldwoski_are_seats_left(barrier);
    if (!is_busy && is_left) break;
    paldwoski_unlock(barrier);
    if (is_busy) return PALDWOSK_NOT_NOW;
    paldwoski_let_others_run(tried);
  }
  phaser_c_waiting_free(&barrier->phaser);
  paldwoski_free_memory(barrier);
  barrier->forks = NULL;
  pthread_mutex_unlock(&barrier->lock);
  paldwoski_destroy_lock(barrier);
  return PALDWOSK_DONE;
}

/* Makes the first task, in any mode. BAD_MODE, NOT_NOW if it was made before. */
PALDWOSK_MUST_CHECK
PALDWOSK_INLINE paldwosk_answer paldwosk_barrier_make(paldwosk_barrier *barrier, paldwosk_mode mode,
                                                      paldwosk_task *task) {
  paldwosk_answer answer = task ? paldwoski_enter(barrier) : PALDWOSK_NULL;
  if (answer != PALDWOSK_DONE) return answer;
  uint64_t number = 0;
  paldwoski_go_slow(barrier);
  answer = (paldwosk_answer)phaser_c_waiting_make(&barrier->phaser, (uint32_t)mode, &number);
  if (answer == PALDWOSK_DONE)
    *task = paldwoski_new_task(barrier, number, (uint32_t)mode, number, paldwoski_free_place(barrier));
  paldwoski_unlock(barrier);
  return answer;
}

/* Makes a task for another thread, in a mode within the parent's. It begins in the parent's phase, and is ahead if the
 * parent is ahead. BAD_MODE, NOT_REGISTERED, MORE_THAN_PARENT, REGS_FULL if there are 256 tasks, HISTORY_FULL after 2^62
 * events. */
PALDWOSK_MUST_CHECK
PALDWOSK_INLINE paldwosk_answer paldwosk_barrier_join(const paldwosk_task *parent, paldwosk_mode mode,
                                                      paldwosk_task *task) {
  paldwosk_answer answer = task ? paldwoski_enter_by(parent) : PALDWOSK_NULL;
  if (answer != PALDWOSK_DONE) return answer;
  paldwosk_barrier *barrier = parent->barrier;
  answer = paldwoski_join(parent, (uint32_t)mode, task);
  paldwoski_unlock(barrier);
  return answer;
}

/* Signals, and waits until the phase is over: until each task that signals has signalled it, and its single is done.
 * On DONE *phase is the phase, unless `phase` is NULL. NOT_REGISTERED, NO_SIGNAL, ALREADY_SIGNALLED, NOT_NOW,
 * HISTORY_FULL. */
PALDWOSK_MUST_CHECK
PALDWOSK_INLINE paldwosk_answer paldwosk_barrier_next(const paldwosk_task *task, uint64_t *phase) {
#ifdef PALDWOSKI_IN_ROUNDS
  return paldwoski_next_by(task, phase);
#else
  return paldwoski_call_by(task, PALDWOSKI_CALL_NEXT, 0, phase);
#endif
}

/* Signals, and goes on. It waits only if the task would be ahead of a waiting task by more than the bound.
 * NOT_REGISTERED, NO_SIGNAL, ALREADY_SIGNALLED, NOT_NOW, HISTORY_FULL. */
PALDWOSK_MUST_CHECK
PALDWOSK_INLINE paldwosk_answer paldwosk_barrier_signal(const paldwosk_task *task) {
  return paldwoski_call_by(task, PALDWOSKI_CALL_SIGNAL, 0, NULL);
}

/* Waits until the phase that the task has signalled is over; if the task only waits, the phase that it hasn't waited
 * for yet. A task that only signals doesn't wait: this begins its next phase. On DONE *phase is the phase, unless
 * `phase` is NULL. NOT_REGISTERED, NOT_SIGNALLED, NOT_NOW (also in the statement of the task's own single),
 * HISTORY_FULL. */
PALDWOSK_MUST_CHECK
PALDWOSK_INLINE paldwosk_answer paldwosk_barrier_wait(const paldwosk_task *task, uint64_t *phase) {
  return paldwoski_call_by(task, PALDWOSKI_CALL_WAIT, 0, phase);
}

/* Sends a value to an accumulator, for the phase that the task hasn't signalled yet. NOT_REGISTERED, NO_SIGNAL,
 * NO_ACCUMULATOR, HISTORY_FULL. */
PALDWOSK_MUST_CHECK
PALDWOSK_INLINE paldwosk_answer paldwosk_barrier_send(const paldwosk_task *task, uint32_t accumulator, int32_t value) {
  paldwosk_answer answer = task ? paldwoski_may_enter(task->barrier) : PALDWOSK_NULL;
  uint8_t index = accumulator < 255 ? (uint8_t)accumulator : 255; /* there are four at most */
  do {
    if (answer != PALDWOSK_DONE || paldwoski_send_at_seat(task, index, value, &answer)) return answer;
  } while (paldwoski_is_fetched(task));
  paldwosk_barrier *barrier = task->barrier;
  paldwoski_settle(task);
  answer = (paldwosk_answer)phaser_c_waiting_send(&barrier->phaser, task->number, index, value);
  if (answer == PALDWOSK_DONE && barrier->trace)
    paldwoski_trace_act(barrier->trace, PALDWOSKI_EVENT_SEND, task->number, index, value);
  paldwoski_unlock(barrier);
  return answer;
}

/* What an accumulator holds of the phase that the task passed last. On DONE *value is it. NOTHING if it is the least or
 * the greatest, and no task sent a value; TOO_GREAT if it isn't within an int64_t, which takes 2^32 values.
 * NOT_REGISTERED, NO_WAIT, NO_ACCUMULATOR, NO_PHASE_YET, HISTORY_FULL. */
PALDWOSK_MUST_CHECK
PALDWOSK_INLINE paldwosk_answer paldwosk_barrier_look(const paldwosk_task *task, uint32_t accumulator, int64_t *value) {
  paldwosk_answer answer = task && value ? paldwoski_may_enter(task->barrier) : PALDWOSK_NULL;
  uint8_t index = accumulator < 255 ? (uint8_t)accumulator : 255;
  do {
    if (answer != PALDWOSK_DONE || paldwoski_look_at_seat(task, index, value, &answer)) return answer;
  } while (paldwoski_is_fetched(task));
  paldwosk_barrier *barrier = task->barrier;
  int64_t seen = 0;
  paldwoski_settle(task);
  answer = (paldwosk_answer)phaser_c_waiting_look(&barrier->phaser, task->number, index, &seen);
  if (answer == PALDWOSK_DONE) *value = seen;
  if (barrier->trace && answer == PALDWOSK_DONE)
    paldwoski_trace_act(barrier->trace, PALDWOSKI_EVENT_LOOK, task->number, index, seen);
  if (barrier->trace && answer == PALDWOSK_NOTHING)
    paldwoski_trace_act(barrier->trace, PALDWOSKI_EVENT_LOOK_AT_NOTHING, task->number, index, 0);
  paldwoski_unlock(barrier);
  return answer;
}

/* As paldwosk_barrier_next, and the statement of this number runs once between this phase and the next. The caller
 * proposes it. When all have signalled, one of the callers that proposed it calls run(data), without the lock, and not
 * cancellable. All other waiting tasks are held until it returns; it has to return, and neither throws nor jumps. In the
 * statement its task can send, look and join, but not go on or leave. All are answered DONE. NOT_REGISTERED, NO_SIGNAL,
 * NO_SINGLE, ALREADY_SIGNALLED, SINGLE_MISMATCH if another number is proposed in this phase, NOT_NOW, HISTORY_FULL. */
PALDWOSK_MUST_CHECK
PALDWOSK_INLINE paldwosk_answer paldwosk_barrier_single(const paldwosk_task *task, uint32_t number,
                                                        void (*run)(void *data), void *data, uint64_t *phase) {
  if (!task || !run) return PALDWOSK_NULL;
  paldwosk_task mine = *task;
  paldwosk_answer answer = paldwoski_call_by(&mine, PALDWOSKI_CALL_SINGLE, number, phase);
  return paldwoski_run_claimed(&mine, answer, run, data, phase);
}

/* ---- The same calls, with a time. What that means stands at the head: WAITS WITH A TIME. Each answers what the call
 * without a time does, or TIMED_OUT: then the call goes on, and the task's next call of the same name waits for its
 * answer. */

/* paldwosk_barrier_next, which waits for so many milliseconds at most. TIMED_OUT: the task has signalled, or will. */
PALDWOSK_MUST_CHECK
PALDWOSK_INLINE paldwosk_answer paldwosk_barrier_next_for(const paldwosk_task *task, uint32_t milliseconds,
                                                          uint64_t *phase) {
  return paldwoski_call_in_time(task, PALDWOSKI_CALL_NEXT, 0, milliseconds, phase);
}

/* paldwosk_barrier_next, which doesn't wait. TIMED_OUT: the task has signalled, or will. */
PALDWOSK_MUST_CHECK
PALDWOSK_INLINE paldwosk_answer paldwosk_barrier_try_next(const paldwosk_task *task, uint64_t *phase) {
  return paldwoski_call_in_time(task, PALDWOSKI_CALL_NEXT, 0, 0, phase);
}

/* paldwosk_barrier_signal, which waits for so many milliseconds at most. TIMED_OUT: it will signal, once the bound lets
 * it. */
PALDWOSK_MUST_CHECK
PALDWOSK_INLINE paldwosk_answer paldwosk_barrier_signal_for(const paldwosk_task *task, uint32_t milliseconds) {
  return paldwoski_call_in_time(task, PALDWOSKI_CALL_SIGNAL, 0, milliseconds, NULL);
}

/* paldwosk_barrier_signal, which doesn't wait. TIMED_OUT: it will signal, once the bound lets it. */
PALDWOSK_MUST_CHECK
PALDWOSK_INLINE paldwosk_answer paldwosk_barrier_try_signal(const paldwosk_task *task) {
  return paldwoski_call_in_time(task, PALDWOSKI_CALL_SIGNAL, 0, 0, NULL);
}

/* paldwosk_barrier_wait, which waits for so many milliseconds at most. TIMED_OUT. */
PALDWOSK_MUST_CHECK
PALDWOSK_INLINE paldwosk_answer paldwosk_barrier_wait_for(const paldwosk_task *task, uint32_t milliseconds,
                                                          uint64_t *phase) {
  return paldwoski_call_in_time(task, PALDWOSKI_CALL_WAIT, 0, milliseconds, phase);
}

/* paldwosk_barrier_wait, which doesn't wait: whether the phase is over. TIMED_OUT if it isn't. */
PALDWOSK_MUST_CHECK
PALDWOSK_INLINE paldwosk_answer paldwosk_barrier_try_wait(const paldwosk_task *task, uint64_t *phase) {
  return paldwoski_call_in_time(task, PALDWOSKI_CALL_WAIT, 0, 0, phase);
}

/* paldwosk_barrier_single, which waits for so many milliseconds at most, and then for its statement if it runs that.
 * TIMED_OUT: the task can't leave, and has to come back with the same number; if it is to run the statement, all wait
 * for it. */
PALDWOSK_MUST_CHECK
PALDWOSK_INLINE paldwosk_answer paldwosk_barrier_single_for(const paldwosk_task *task, uint32_t number,
                                                            uint32_t milliseconds, void (*run)(void *data), void *data,
                                                            uint64_t *phase) {
  if (!task || !run) return PALDWOSK_NULL;
  paldwosk_task mine = *task;
  paldwosk_answer answer = paldwoski_call_in_time(&mine, PALDWOSKI_CALL_SINGLE, number, milliseconds, phase);
  return paldwoski_run_claimed(&mine, answer, run, data, phase);
}

/* paldwosk_barrier_single, which doesn't wait, but runs its statement if that is its turn. TIMED_OUT as of
 * paldwosk_barrier_single_for. */
PALDWOSK_MUST_CHECK
PALDWOSK_INLINE paldwosk_answer paldwosk_barrier_try_single(const paldwosk_task *task, uint32_t number,
                                                            void (*run)(void *data), void *data, uint64_t *phase) {
  return paldwosk_barrier_single_for(task, number, 0, run, data, phase);
}

/* ---- Leaving, and looking on */

/* The task leaves: no task waits for it any more. What it has sent counts. NOT_REGISTERED, also if it has left before;
 * NOT_NOW if it has proposed a single that isn't done. If another thread waits for this task, that call is
 * answered NOT_REGISTERED. */
PALDWOSK_MUST_CHECK
PALDWOSK_INLINE paldwosk_answer paldwosk_barrier_leave(const paldwosk_task *task) {
  paldwosk_answer entered = paldwoski_enter_by(task);
  if (entered != PALDWOSK_DONE) return entered;
  struct paldwoski_sleeper me = paldwoski_new_sleeper(task->number, PALDWOSKI_CALL_WAIT, 0);
  if (paldwoski_leave_at_seat(task)) {
    me.answer = PALDWOSK_DONE;
  } else {
    paldwoski_settle(task);
    paldwoski_ask_to_leave(task->barrier, &me);
  }
  paldwoski_end_call(task->barrier, &me);
  return (paldwosk_answer)me.answer;
}

/* Who keeps others waiting: writes the numbers of these tasks, the least first, to `tasks`, which has `room` places.
 * Such a task hasn't signalled a phase that others wait for, or it runs a single. Or the bound holds back a signal until
 * this task has waited. A task that waits itself isn't among them. *count is how many there are, 256 at most; it is 0 if
 * nobody waits. `tasks` may be NULL if the room is 0. SHORT if the room is too small: then only *count is written. The
 * call looks at all tasks under the lock: it is for finding a fault, not for each phase.
 *
 *     uint64_t missing[256];
 *     size_t count = 0;
 *     paldwosk_answer answer = paldwosk_barrier_missing(&barrier, missing, 256, &count);
 *     for (size_t at = 0; answer == PALDWOSK_DONE && at < count; at++) printf("task %" PRIu64 "\n", missing[at]); */
PALDWOSK_MUST_CHECK
PALDWOSK_INLINE paldwosk_answer paldwosk_barrier_missing(paldwosk_barrier *barrier, uint64_t *tasks, size_t room,
                                                         size_t *count) {
  paldwosk_answer answer = count && (tasks || !room) ? paldwoski_enter(barrier) : PALDWOSK_NULL;
  if (answer != PALDWOSK_DONE) return answer;
  paldwoski_go_slow(barrier);
  *count = paldwoski_write_missing(barrier, tasks, room);
  answer = *count > room ? PALDWOSK_SHORT : PALDWOSK_DONE;
  paldwoski_unlock(barrier);
  return answer;
}

/* For how many pauses of the processor a thread spins at most before it yields and then sleeps. A new barrier has
 * PALDWOSK_MOST_PAUSES; a number over 2^30 - 1 counts as that. paldwosk_barrier_spin(&barrier, 0) has each thread that
 * waits sleep at once: it neither spins nor yields. The barrier finds out by itself for how long to spin, up to this,
 * and whether to yield. No thread spins if there are more tasks than processors, or if threads sleep by a condition
 * variable. */
PALDWOSK_MUST_CHECK
PALDWOSK_INLINE paldwosk_answer paldwosk_barrier_spin(paldwosk_barrier *barrier, uint32_t most) {
  paldwosk_answer answer = paldwoski_enter(barrier);
  if (answer != PALDWOSK_DONE) return answer;
  if (most > UINT32_MAX / 4) most = UINT32_MAX / 4;
  __atomic_store_n(&barrier->most_pauses, most, __ATOMIC_RELAXED);
  __atomic_store_n(&barrier->pauses, 0, __ATOMIC_RELAXED);
  paldwoski_unlock(barrier);
  return PALDWOSK_DONE;
}

/* Writes the trace of what was done so far, as text (docs/formats.md). `./phaser_run replay` and paldwosk_replay
 * judge it, ./trace_picture draws it. It is a whole run, so a task that is still there has to end in it. That is told
 * after its single, if one is under way, and by a refusal that no call of a barrier is answered. The report has the
 * line `task 1 refused 21 NoFinish` for it, in place of `task 1 ended`. No NUL is added; *written is how many bytes the
 * text has, even if the room is too small for it. The text may be NULL if the room is 0. NOT_KEPT if the barrier keeps
 * no trace; SHORT. */
PALDWOSK_MUST_CHECK
PALDWOSK_INLINE paldwosk_answer paldwosk_barrier_trace(paldwosk_barrier *barrier, char *text, size_t room,
                                                       size_t *written) {
  paldwosk_answer answer = written && (text || !room) ? paldwoski_enter(barrier) : PALDWOSK_NULL;
  if (answer != PALDWOSK_DONE) return answer;
  if (!barrier->trace) answer = PALDWOSK_NOT_KEPT;
  else if ((*written = paldwoski_text_whole(barrier->trace, NULL)) > room) answer = PALDWOSK_SHORT;
  else paldwoski_text_whole(barrier->trace, text);
  paldwoski_unlock(barrier);
  return answer;
}

/* Whether a limit of the trace has come, so that it tells of the run up to there: 60,000 events of the phaser, a task
 * number over 4,095, or what no trace can tell: that a task sends, looks or joins another in the statement of its
 * single. */
PALDWOSK_INLINE int paldwosk_barrier_trace_ended(paldwosk_barrier *barrier) {
  if (paldwoski_enter(barrier) != PALDWOSK_DONE) return 0;
  int has_ended = barrier->trace && barrier->trace->has_ended;
  paldwoski_unlock(barrier);
  return has_ended;
}

#ifdef __cplusplus
}
#endif

#endif
