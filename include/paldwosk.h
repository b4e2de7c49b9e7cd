/* Paldwosk for C: a checker of traces, a judge of events as they come, and one phaser.
 *
 * Link crates/phaser_c/out/libphaser_c.a, which `tools/build_program phaser_c` proves and builds, and the
 * toolchain's liblibc_c.a, through which it calls malloc, realloc and free (docs/barrier.md has the command).
 *
 * WHAT IS PROVED, AND WHAT YOU OWE. Each function here passes its arguments on to one function of the archive,
 * phaser_c_.., whose contract says what it answers: what the library's call answers. The declarations and inline
 * functions of this header are tested, not proved. Nothing checks a C caller, so these are yours to uphold, for every
 * function:
 *
 *   - A pointer is NULL or leads to what its type says, for the whole call. Of a pointer with a length, all
 *     `length` items are there, initialised, and none of them is written by others during the call.
 *   - What is written to (a room, a place of a result, a paldwosk_phaser) lies apart from all else that the call is
 *     given.
 *   - A paldwosk_phaser is zeroed before its first use, and is then only passed to these functions. It isn't copied:
 *     of two copies the library can't know that they are one phaser. The same holds of a paldwosk_judge, here and below.
 *   - One thread at a time has a paldwosk_phaser. It may go from thread to thread, if a lock, the start or the join of
 *     a thread orders their calls. For threads that share one, put a lock of your own round it:
 *
 *         pthread_mutex_lock(&lock);
 *         answer = paldwosk_pass(&phaser, task, &phase);
 *         pthread_mutex_unlock(&lock);
 *
 *     No call waits, so the lock is held only while the call runs. A thread that is answered PALDWOSK_NOT_YET asks again
 *     after another thread's call: let every caller signal a condition variable. The functions of the checker have no
 *     state, and any number of threads may be in them.
 *   - malloc, realloc and free are of one allocator, with blocks aligned to 16. No function is called from a signal
 *     handler, or in the forked child of a process with threads.
 *
 * A NULL pointer, a number that is no mode's and a room that is too small are answers, and change nothing but *written,
 * which says how much room it takes. So is a paldwosk_phaser that holds no phaser, and a paldwosk_judge without a judge.
 */
#ifndef PALDWOSK_H
#define PALDWOSK_H

#include "paldwosk_version.h"

#include <stddef.h>
#include <stdint.h>

/* A compiler warns of a call whose answer isn't looked at. */
#if defined __cplusplus && __cplusplus >= 201703L
#define PALDWOSK_MUST_CHECK [[nodiscard]]
#elif defined __GNUC__
#define PALDWOSK_MUST_CHECK __attribute__((warn_unused_result))
#else
#define PALDWOSK_MUST_CHECK
#endif

/* In C each file has its own copy of a header's functions. In C++ all files have one, as its rule of one definition asks
 * of functions that other inline functions call. */
#ifdef __cplusplus
#define PALDWOSK_INLINE inline
#else
#define PALDWOSK_INLINE static inline
#endif

#ifdef __cplusplus
extern "C" {
#endif

/* What a function answers. */
typedef enum paldwosk_answer {
  PALDWOSK_DONE = 0, /* the call was done */

  /* The call was refused, and changed nothing. The numbers are those that the program prints. */
  PALDWOSK_NOT_REGISTERED = 1,    /* the task isn't registered, or it has left */
  PALDWOSK_NO_SIGNAL = 2,         /* the task's mode can't signal */
  PALDWOSK_NO_WAIT = 3,           /* the task's mode can't wait, so it can't look either */
  PALDWOSK_NO_SINGLE = 4,         /* the task's mode isn't SINGLE */
  PALDWOSK_ALREADY_SIGNALLED = 5, /* the task has signalled since its last turn */
  PALDWOSK_NOT_SIGNALLED = 6,     /* the task can signal, and hasn't done so since its last turn */
  PALDWOSK_SINGLE_MISMATCH = 7,   /* another number is proposed in this phase */
  PALDWOSK_ONE_PHASER_ONLY = 8,   /* of worlds alone: a single asks for exactly one registration */
  PALDWOSK_NO_ACCUMULATOR = 9,    /* the phaser has no accumulator of that index */
  PALDWOSK_NO_PHASE_YET = 10,     /* the task hasn't finished a turn yet */
  PALDWOSK_MORE_THAN_PARENT = 11, /* the child's mode isn't within the parent's */
  PALDWOSK_OUTSIDE_SCOPE = 12,    /* of worlds alone: the phaser wasn't made in the innermost finish */
  PALDWOSK_REGISTERED_TWICE = 13, /* the child was registered there before, or is named twice */
  PALDWOSK_REGS_FULL = 14,        /* as many tasks are registered as the limits allow */
  PALDWOSK_HISTORY_FULL = 15,     /* the history has no room for the event */
  PALDWOSK_PHASERS_FULL = 16,     /* of worlds alone: the phaser number is at the limit, or the task holds 16 phasers */
  PALDWOSK_TASKS_FULL = 17,       /* the task number is at the limit or above */
  PALDWOSK_FINISHES_FULL = 18,    /* of worlds alone: the finish number is at the limit */
  PALDWOSK_ACTS_FULL = 19,        /* of worlds alone: the task's acts are at the limit */
  PALDWOSK_FINISH_OPEN = 20,      /* of worlds alone: the task ends with an open finish of its own */
  PALDWOSK_NO_FINISH = 21,        /* of worlds alone: the task has no open finish of its own to shut */
  PALDWOSK_NOT_NOW = 22,          /* the wrong moment: this isn't possible right now */
  PALDWOSK_MEMORY = 23,           /* memory was refused */
  PALDWOSK_BAD_TEXT = 24,         /* of texts alone: the text isn't of the form */
  PALDWOSK_NOT_EXPLAINED = 25,    /* of traces alone: an event of the trace can't follow those before it */
  PALDWOSK_SHARES_DIFFER = 26,    /* of runs on threads alone: gathered shares and books differ */

  /* The call was answered, and isn't simply done. On NOT_YET of phaser_c_waiting_.. the task waits. */
  PALDWOSK_NOT_YET = 32,   /* nothing has changed */
  PALDWOSK_CLAIMED = 33,   /* the task is to run the single */
  PALDWOSK_NOTHING = 34,   /* no values were sent, so there is no least or greatest */
  PALDWOSK_NOT_KEPT = 35,  /* what is asked for isn't kept */
  PALDWOSK_TOO_GREAT = 36, /* the fold isn't within 64 bits: it takes 2^32 values in one phase */

  /* An answer of paldwosk_barrier.h alone, of no function of the archive. The call goes on, and the same call waits for
   * its answer. */
  PALDWOSK_TIMED_OUT = 48, /* the time is over and the call isn't */

  /* What was passed is at fault. Nothing changed, except *written if the room is too small. Room for tasks has to
   * be PALDWOSK_MOST_FREED. */
  PALDWOSK_NULL = 64,          /* a required pointer is NULL, or the task is zeroed */
  PALDWOSK_CLOSED = 65,        /* there is no phaser or judge, or it was freed, or a fork has left it behind */
  PALDWOSK_OPEN = 66,          /* there is a phaser or judge already */
  PALDWOSK_SHORT = 67,         /* the room is too small */
  PALDWOSK_BAD_MODE = 68,      /* no mode has this number */
  PALDWOSK_BAD_LIMITS = 69,    /* a limit isn't between its least and its greatest */
  PALDWOSK_BAD_OPERATORS = 70, /* there are more than four operators, or no operator has one of the numbers */
  PALDWOSK_BAD_BOUND = 71,     /* the bound isn't one of 1 to 65,536 phases */
  PALDWOSK_BAD_TICKETS = 72,   /* there aren't as many tickets as events */
  PALDWOSK_BAD_KIND = 73,      /* no kind of event has this number */

  /* Answers of a judge alone, beside those of 1 to 22: the event can't be. The judge is over. */
  PALDWOSK_NOT_MADE = 80,           /* the event's phaser isn't made, or its last task has left it */
  PALDWOSK_MADE_ALREADY = 81,       /* the event makes a phaser that is there */
  PALDWOSK_REGISTERED_ALREADY = 82, /* the event registers a task that is registered there */
  PALDWOSK_HAD_TO_WAIT = 83,        /* the event came before those that the task had to wait for */
  PALDWOSK_CLAIMS_INSTEAD = 84,     /* the task passed, but it had the single of its phase to run */
  PALDWOSK_PASSES_INSTEAD = 85,     /* the task claimed a single, but its phase had none left to run */
  PALDWOSK_SAW_OTHER = 86,          /* the look saw another value than was sent to the phase before */
  PALDWOSK_OVER = 87                /* the judge refused an event before, and judges no more */
} paldwosk_answer;

/* What an answer means and what to do about it, in one sentence for a person, beginning with its name and number: of
 * PALDWOSK_REGS_FULL "RegsFull (14): as many tasks are registered as the limits allow; let one leave first". It is never
 * NULL, also if no answer has the number. It is nobody's to free, and may be asked for by any thread at any time.
 *
 *     fprintf(stderr, "the barrier wasn't made: %s\n", paldwosk_answer_text(answer)); */
PALDWOSK_INLINE const char *paldwosk_answer_text(paldwosk_answer answer) {
  switch (answer) {
    case PALDWOSK_DONE: return "Done (0): the call was done; go on";
    case PALDWOSK_NOT_REGISTERED: return "NotRegistered (1): the task isn't registered, or it has left; join it first";
    case PALDWOSK_NO_SIGNAL:
      return "NoSignal (2): the task's mode can't signal; join the task with SIG, SIG_WAIT or SINGLE, or have it wait";
    case PALDWOSK_NO_WAIT:
      return "NoWait (3): the task's mode can't wait, so it can't look either; "
             "join the task with WAIT, SIG_WAIT or SINGLE";
    case PALDWOSK_NO_SINGLE:
      return "NoSingle (4): the task's mode isn't SINGLE; join the task with SINGLE, or propose no single";
    case PALDWOSK_ALREADY_SIGNALLED:
      return "AlreadySignalled (5): the task has signalled since its last turn; end the turn before you signal again";
    case PALDWOSK_NOT_SIGNALLED:
      return "NotSignalled (6): the task can signal, and hasn't done so since its last turn; "
             "signal before you end the turn";
    case PALDWOSK_SINGLE_MISMATCH:
      return "SingleMismatch (7): another number is proposed in this phase; propose that number, or signal without one";
    case PALDWOSK_ONE_PHASER_ONLY:
      return "OnePhaserOnly (8): a single asks for exactly one registration; leave the other phasers first";
    case PALDWOSK_NO_ACCUMULATOR:
      return "NoAccumulator (9): the phaser has no accumulator of that index; "
             "name its operator when you make the phaser (the first has index 0)";
    case PALDWOSK_NO_PHASE_YET:
      return "NoPhaseYet (10): the task hasn't finished a turn yet; look after its first turn";
    case PALDWOSK_MORE_THAN_PARENT:
      return "MoreThanParent (11): the child's mode isn't within the parent's; "
             "take a mode that does less, or another parent";
    case PALDWOSK_OUTSIDE_SCOPE:
      return "OutsideScope (12): the phaser wasn't made in the innermost finish; register on it from its own finish";
    case PALDWOSK_REGISTERED_TWICE:
      return "RegisteredTwice (13): the child was registered there before, or is named twice; "
             "name it once, by a number that no task has or had";
    case PALDWOSK_REGS_FULL:
      return "RegsFull (14): as many tasks are registered as the limits allow; let one leave first";
    case PALDWOSK_HISTORY_FULL:
      return "HistoryFull (15): the history has no room for the event; raise its limit, or make a new phaser";
    case PALDWOSK_PHASERS_FULL:
      return "PhasersFull (16): the phaser number is at the limit, or the task holds 16 phasers; "
             "raise the limit, or use fewer";
    case PALDWOSK_TASKS_FULL:
      return "TasksFull (17): the task number is at the limit or above; raise the limit, or use smaller numbers";
    case PALDWOSK_FINISHES_FULL: return "FinishesFull (18): the finish number is at the limit; raise the limit";
    case PALDWOSK_ACTS_FULL:
      return "ActsFull (19): the task's acts are at the limit; raise the limit, or spawn a child for the rest";
    case PALDWOSK_FINISH_OPEN:
      return "FinishOpen (20): the task ends with an open finish of its own; shut it before the task ends";
    case PALDWOSK_NO_FINISH:
      return "NoFinish (21): the task has no open finish of its own to shut; open one before it shuts one";
    case PALDWOSK_NOT_NOW:
      return "NotNow (22): the wrong moment: this isn't possible right now; "
             "make a phaser once, leave after a single is done, go on with a call whose time is over";
    case PALDWOSK_MEMORY: return "Memory (23): memory was refused; free some, or ask for less";
    case PALDWOSK_BAD_TEXT: return "BadText (24): the text isn't of the form; compare it with docs/formats.md";
    case PALDWOSK_NOT_EXPLAINED:
      return "NotExplained (25): an event of the trace can't follow those before it; look at the place that is named";
    case PALDWOSK_SHARES_DIFFER:
      return "SharesDiffer (26): gathered shares and books differ; report it as a fault of the library";
    case PALDWOSK_NOT_YET: return "NotYet (32): nothing has changed; ask again after another task's call";
    case PALDWOSK_CLAIMED:
      return "Claimed (33): the task is to run the single; run it, report it done, and ask to pass again";
    case PALDWOSK_NOTHING:
      return "Nothing (34): no values were sent, so there is no least or greatest; go on without one";
    case PALDWOSK_NOT_KEPT:
      return "NotKept (35): what is asked for isn't kept; "
             "make a traced barrier, or ask of another phase or accumulator";
    case PALDWOSK_TOO_GREAT:
      return "TooGreat (36): the fold isn't within 64 bits: it takes 2^32 values in one phase; "
             "go on without it, or send fewer";
    case PALDWOSK_TIMED_OUT:
      return "TimedOut (48): the time is over and the call isn't; make the same call again, or let the task leave";
    case PALDWOSK_NULL:
      return "Null (64): a required pointer is NULL, or the task is zeroed; pass the address of a variable";
    case PALDWOSK_CLOSED:
      return "Closed (65): there is no phaser or judge, or it was freed, or a fork has left it behind; make one first";
    case PALDWOSK_OPEN: return "Open (66): there is a phaser or judge already; free it before you make another there";
    case PALDWOSK_SHORT:
      return "Short (67): the room is too small; call again with as much as the call says that it takes";
    case PALDWOSK_BAD_MODE: return "BadMode (68): no mode has this number; use one of the four of paldwosk_mode";
    case PALDWOSK_BAD_LIMITS:
      return "BadLimits (69): a limit isn't between its least and its greatest; begin with the default limits";
    case PALDWOSK_BAD_OPERATORS:
      return "BadOperators (70): there are more than four operators, or no operator has one of the numbers; "
             "take at most four, of sum, least and greatest";
    case PALDWOSK_BAD_BOUND:
      return "BadBound (71): the bound isn't one of 1 to 65,536 phases; take 2 if each task signals and waits";
    case PALDWOSK_BAD_TICKETS:
      return "BadTickets (72): there aren't as many tickets as events; draw one for each event";
    case PALDWOSK_BAD_KIND:
      return "BadKind (73): no kind of event has this number; use one of the eleven of paldwosk_judged_kind";
    case PALDWOSK_NOT_MADE:
      return "NotMade (80): the event's phaser isn't made, or its last task has left it; "
             "see that its make is handed over first";
    case PALDWOSK_MADE_ALREADY:
      return "MadeAlready (81): the event makes a phaser that is there; "
             "see that its last drop is handed over before its number is used again";
    case PALDWOSK_REGISTERED_ALREADY:
      return "RegisteredAlready (82): the event registers a task that is registered there; "
             "see that its drop is handed over before its number is used again";
    case PALDWOSK_HAD_TO_WAIT:
      return "HadToWait (83): the event came before those that the task had to wait for; "
             "see who hadn't signalled, or had a single to do, or was behind by the bound";
    case PALDWOSK_CLAIMS_INSTEAD:
      return "ClaimsInstead (84): the task passed, but it had the single of its phase to run; "
             "see who ran the single, and when";
    case PALDWOSK_PASSES_INSTEAD:
      return "PassesInstead (85): the task claimed a single, but its phase had none left to run; "
             "see whether the single ran twice";
    case PALDWOSK_SAW_OTHER:
      return "SawOther (86): the look saw another value than was sent to the phase before; "
             "see which send is lost or counted twice";
    case PALDWOSK_OVER:
      return "Over (87): the judge refused an event before, and judges no more; "
             "look at that event, and make a new judge";
  }
  return "no answer has this number; compare the versions of the header and of the archive";
}

/* What a task may do on a phaser. */
typedef enum paldwosk_mode {
  PALDWOSK_SIG = 0,      /* signals, and waits for nobody */
  PALDWOSK_WAIT = 1,     /* waits, and nobody waits for it */
  PALDWOSK_SIG_WAIT = 2, /* signals and waits, as at a barrier */
  PALDWOSK_SINGLE = 3    /* signals and waits, and may run a statement alone between two phases */
} paldwosk_mode;

/* How an accumulator folds the values of a phase. */
typedef enum paldwosk_operator {
  PALDWOSK_SUM = 0,     /* their sum, 0 for none */
  PALDWOSK_LEAST = 1,   /* the least of them */
  PALDWOSK_GREATEST = 2 /* the greatest of them */
} paldwosk_operator;

/* How much a run may have of each thing. A phaser alone looks at history, regs and tasks; all six stand in the text of
 * its history. */
typedef struct paldwosk_limits {
  uint32_t acts;     /* acts of a task: 1 to 65,536 */
  uint32_t finishes; /* finishes of a run: 1 to 1,024 */
  uint32_t history;  /* events in a phaser's history: 4 to 65,536 */
  uint32_t phasers;  /* phasers of a run: 1 to 64 */
  uint32_t regs;     /* registrations on a phaser at once: 1 to 256 */
  uint32_t tasks;    /* tasks of a run; their numbers are below it: 1 to 4,096 */
} paldwosk_limits;

/* The default limits. */
#define PALDWOSK_DEFAULT_LIMITS {4096, 64, 4096, 64, 256, 256}

/* A phaser as C holds it: one pointer, NULL while there is no phaser. Its field is the library's. */
typedef struct paldwosk_phaser {
  void *held;
} paldwosk_phaser;

#define PALDWOSK_NO_PHASER {NULL}

/* A phaser for threads that wait, with its waiting tasks, as C holds it: one pointer, NULL while there is no phaser. Its
 * field is the library's. The calls that wait are those of paldwosk_barrier.h, over this. */
typedef struct paldwosk_waiting {
  void *held;
} paldwosk_waiting;

#define PALDWOSK_NOBODY_WAITING {NULL}

/* A judge of events, as C holds it: one pointer, NULL while there is no judge. Its field is the library's. */
typedef struct paldwosk_judge {
  void *held;
} paldwosk_judge;

#define PALDWOSK_NO_JUDGE {NULL}

/* What happened at a phaser. */
typedef enum paldwosk_judged_kind {
  PALDWOSK_JUDGED_MAKE = 0,         /* the task made the phaser, and was registered in `mode` */
  PALDWOSK_JUDGED_REG = 1,          /* the task registered `child` in `mode` */
  PALDWOSK_JUDGED_SIG = 2,          /* the task signalled its phase, and proposed no single */
  PALDWOSK_JUDGED_SIG_SINGLE = 3,   /* it signalled, and proposed the single of the number `single` */
  PALDWOSK_JUDGED_CLAIM = 4,        /* the task claimed the single of its phase, to run it */
  PALDWOSK_JUDGED_DID = 5,          /* the task reported the single done that it had claimed */
  PALDWOSK_JUDGED_PASS = 6,         /* the task ended its turn */
  PALDWOSK_JUDGED_SEND = 7,         /* the task sent `value` to `accumulator` */
  PALDWOSK_JUDGED_LOOK = 8,         /* the task looked at `accumulator`, and saw `seen` */
  PALDWOSK_JUDGED_LOOK_NOTHING = 9, /* it looked, and there was no least and no greatest of no values */
  PALDWOSK_JUDGED_DROP = 10         /* the task left the phaser, which is gone with its last task */
} paldwosk_judged_kind;

/* An event of a phaser. Only those fields are looked at that its kind has; the others may be any numbers. */
typedef struct paldwosk_judged_event {
  uint64_t phaser;         /* any number */
  uint64_t task;           /* who acts, of REG the parent: any number */
  uint64_t child;          /* of REG */
  int64_t seen;            /* of LOOK */
  int32_t value;           /* of SEND */
  uint32_t single;         /* of SIG_SINGLE */
  uint32_t kind;           /* a paldwosk_judged_kind */
  uint32_t mode;           /* of MAKE and REG: a paldwosk_mode */
  uint32_t accumulator;    /* of SEND, LOOK and LOOK_NOTHING: its index, from 0 */
  uint32_t bound;          /* of MAKE: 1 to 65,536, or 0 for none */
  uint32_t operator_count; /* of MAKE: 0 to 4 */
  uint32_t operators[4];   /* of MAKE: the first so many, each a paldwosk_operator */
} paldwosk_judged_event;

/* What a judge counted of the events that it accepted. A count stays at 2^64 - 1 if it would be more. */
typedef struct paldwosk_judged_totals {
  uint64_t events;
  uint64_t made;          /* phasers that were made */
  uint64_t there;         /* phasers that are there now; of a judge that is over it says nothing */
  uint64_t registrations; /* those of the makers among them */
  uint64_t signals;
  uint64_t passes;
  uint64_t drops;
  uint64_t sends;
  uint32_t over; /* 1 if the judge is over, else 0 */
} paldwosk_judged_totals;

/* How many of the tasks for which an event had to wait a paldwosk_judged_why names. */
#define PALDWOSK_MOST_NAMED 16

/* For whom an event had to wait: tasks that are registered, can signal, and haven't signalled its phase. */
typedef struct paldwosk_judged_why {
  uint64_t phase;                      /* of PASS and CLAIM, the phase at which their task stands; else 0 */
  uint64_t count;                      /* how many tasks owe it: 0 to 256 */
  uint64_t tasks[PALDWOSK_MOST_NAMED]; /* the first of them, in the order of their registration; behind fewer stand zeros */
} paldwosk_judged_why;

/* A task that had to wait. Another task's call has now ended its wait. */
typedef struct paldwosk_freed {
  uint64_t task;
  uint64_t number; /* on DONE of a pass the phase, on CLAIMED the single's number; else 0 */
  uint32_t answer; /* a paldwosk_answer: DONE, CLAIMED, or why the call was refused */
} paldwosk_freed;

/* A value that a task sends to an accumulator, of the calls of a round. */
typedef struct paldwosk_given_send {
  uint64_t task;
  int32_t value;
  uint8_t accumulator;
} paldwosk_given_send;

/* How many tasks may wait at a phaser at once, and be freed by one call. */
#define PALDWOSK_MOST_FREED 256

/* How a check ended. Where the program phaser_run has an exit status for it, it is that. */
typedef enum paldwosk_status {
  PALDWOSK_STATUS_DONE = 0,    /* the lines are written */
  PALDWOSK_STATUS_REFUSED = 1, /* the text was refused, or memory: the line of the refusal is written */
  PALDWOSK_STATUS_NULL = 64,   /* a pointer is NULL, nothing was written */
  PALDWOSK_STATUS_SHORT = 67   /* the room is too small, nothing was written but how many bytes the text has */
} paldwosk_status;

/* ---- The archive's functions. Call those below, which look for NULL before. Here no pointer may be NULL. */

/* The form in which this header and the archive hand values to each other. The name has its number: with an archive of
 * another form a program doesn't link, and the linker names this symbol. */
uint32_t phaser_c_abi_1(void);
uint32_t phaser_c_replay(const uint8_t *trace, size_t length, uint8_t *report, size_t room, size_t *written);
uint32_t phaser_c_events(const uint8_t *file, size_t length, uint8_t *lines, size_t room, size_t *written);
uint32_t phaser_c_judge_new(paldwosk_judge *judge);
void phaser_c_judge_free(paldwosk_judge *judge);
uint32_t phaser_c_judge_event(paldwosk_judge *judge, const paldwosk_judged_event *event);
uint32_t phaser_c_judge_event_with_owing(paldwosk_judge *judge, const paldwosk_judged_event *event,
                                         paldwosk_judged_why *why);
uint32_t phaser_c_judge_totals(paldwosk_judge *judge, paldwosk_judged_totals *totals);
uint32_t phaser_c_new(paldwosk_phaser *phaser, const paldwosk_limits *limits, const uint32_t *operators, size_t count,
                      uint32_t bound);
void phaser_c_free(paldwosk_phaser *phaser);
uint32_t phaser_c_make(paldwosk_phaser *phaser, uint32_t task, uint32_t mode);
uint32_t phaser_c_register(paldwosk_phaser *phaser, uint32_t parent, uint32_t child, uint32_t mode);
uint32_t phaser_c_signal(paldwosk_phaser *phaser, uint32_t task);
uint32_t phaser_c_signal_single(paldwosk_phaser *phaser, uint32_t task, uint32_t number);
uint32_t phaser_c_pass(paldwosk_phaser *phaser, uint32_t task, uint32_t *number);
uint32_t phaser_c_single_done(paldwosk_phaser *phaser, uint32_t task);
uint32_t phaser_c_send(paldwosk_phaser *phaser, uint32_t task, uint8_t accumulator, int32_t value);
uint32_t phaser_c_look(paldwosk_phaser *phaser, uint32_t task, uint8_t accumulator, int64_t *value);
uint32_t phaser_c_drop(paldwosk_phaser *phaser, uint32_t task);
uint32_t phaser_c_is_closed(paldwosk_phaser *phaser, uint32_t phase, uint32_t *closed);
uint32_t phaser_c_is_full(paldwosk_phaser *phaser, uint32_t *full);
uint32_t phaser_c_fold_at(paldwosk_phaser *phaser, uint8_t accumulator, uint32_t phase, int64_t *value);
uint32_t phaser_c_compared(paldwosk_phaser *phaser, uint32_t *count);
uint32_t phaser_c_event_count(paldwosk_phaser *phaser, uint32_t *count);
uint32_t phaser_c_history_text(paldwosk_phaser *phaser, uint32_t number, const uint64_t *tickets, size_t count,
                               uint8_t *text, size_t room, size_t *written);

uint32_t phaser_c_waiting_new(paldwosk_waiting *phaser, const uint32_t *operators, size_t count, uint32_t bound);
void phaser_c_waiting_free(paldwosk_waiting *phaser);
uint32_t phaser_c_waiting_make(paldwosk_waiting *phaser, uint32_t mode, uint64_t *task);
uint32_t phaser_c_waiting_register(paldwosk_waiting *phaser, uint64_t parent, uint32_t mode, uint64_t *task);
uint32_t phaser_c_waiting_send(paldwosk_waiting *phaser, uint64_t task, uint8_t accumulator, int32_t value);
uint32_t phaser_c_waiting_look(paldwosk_waiting *phaser, uint64_t task, uint8_t accumulator, int64_t *value);
uint32_t phaser_c_waiting_signal(paldwosk_waiting *phaser, uint64_t task, paldwosk_freed *freed, size_t room,
                                 size_t *count);
uint32_t phaser_c_waiting_signal_single(paldwosk_waiting *phaser, uint64_t task, uint32_t proposed, paldwosk_freed *freed,
                                        size_t room, size_t *count);
uint32_t phaser_c_waiting_pass(paldwosk_waiting *phaser, uint64_t task, uint64_t *number, paldwosk_freed *freed,
                               size_t room, size_t *count);
uint32_t phaser_c_waiting_next(paldwosk_waiting *phaser, uint64_t task, uint64_t *number, paldwosk_freed *freed,
                               size_t room, size_t *count);
uint32_t phaser_c_waiting_next_single(paldwosk_waiting *phaser, uint64_t task, uint32_t proposed, uint64_t *number,
                                      paldwosk_freed *freed, size_t room, size_t *count);
uint32_t phaser_c_waiting_single_done(paldwosk_waiting *phaser, uint64_t task, paldwosk_freed *freed, size_t room,
                                      size_t *count);
uint32_t phaser_c_waiting_leave(paldwosk_waiting *phaser, uint64_t task, paldwosk_freed *freed, size_t room,
                                size_t *count);
/* Whether these tasks stand level: each is registered SIG_WAIT in one phase and hasn't signalled it, and nobody waits. On
 * DONE *phase is it. NOT_NOW. Nothing is changed. */
uint32_t phaser_c_waiting_level(paldwosk_waiting *phaser, const uint64_t *tasks, size_t count, uint64_t *phase);
/* Makes the calls of a round in this order: the sends, a signal of each task but the first, a signal and a pass of the
 * first, a pass of each other. DONE if each send and signal was done, and each pass ended the turn of this phase. Else
 * NOT_NOW: *made calls were made, and the last of them was answered otherwise. None is made if somebody waits, or if
 * there are more than 256 tasks or 65,536 sends. */
uint32_t phaser_c_waiting_round(paldwosk_waiting *phaser, const paldwosk_given_send *sends, size_t send_count,
                                const uint64_t *tasks, size_t task_count, uint64_t phase, size_t *made);

/* Tasks that stand level at a phaser, without a lock: each comes once in a phase, and who comes last makes the round of all.
 * These aren't public calls yet. Each task has a paldwosk_level_task of its own; any number of threads may be in the calls
 * at once, each with another. No call waits: what can't be made now is answered NOT_YET, and is asked again. CLOSED: there is
 * no task. NOT_NOW: the task doesn't stand, as it has to for each call but look, or doesn't wait, as it has to for look.
 * HISTORY_FULL: there is no room for a round, and those who have come wait for ever. On any other answer but DONE nothing has
 * changed, but that a task waits which has come, or has sent what it kept. */
typedef struct paldwosk_level_task {
  void *held; /* NULL while there is no task */
} paldwosk_level_task;

/* Makes a phaser and its first task, in phase 0, with the operators and the bound of phaser_c_waiting_new. OPEN,
 * BAD_OPERATORS, BAD_BOUND, MEMORY. */
uint32_t phaser_c_level_new(paldwosk_level_task *task, const uint32_t *operators, size_t count, uint32_t bound);
/* Frees the task, and with the last one the phaser. A task that hasn't left stays registered: the others wait for it. */
void phaser_c_level_free(paldwosk_level_task *task);
/* A task joins by the first and stands where that does; it is put into `other`, which holds none. CLOSED, OPEN, NOT_NOW,
 * MEMORY. NOT_YET: another call has the phaser, or 256 tasks are there, or their list has no memory. */
uint32_t phaser_c_level_join(paldwosk_level_task *task, paldwosk_level_task *other);
/* The task comes. DONE: it came last, and stands in the next phase. NOT_YET: it waits. CLOSED, NOT_NOW, HISTORY_FULL. */
uint32_t phaser_c_level_come(paldwosk_level_task *task);
/* Whether a task that has come may go on. DONE: it stands in the next phase. NOT_YET, NOT_NOW. CLOSED: the table was closed
 * while the task waited, as phaser_c_level_close says; or there is no task. */
uint32_t phaser_c_level_look(paldwosk_level_task *task);
/* The task leaves; it is to be freed all the same. NOT_YET: another call has the phaser, or the task kept a value, which is
 * sent now. CLOSED, NOT_NOW. HISTORY_FULL: it has left, and all others had come. */
uint32_t phaser_c_level_leave(paldwosk_level_task *task);
/* A value is sent in the task's phase, or what was sent in the one before is looked at. A task keeps one value until it comes,
 * if its number is below 256; then a send asks nobody. NOT_YET: another call has the phaser. CLOSED, NOT_NOW, and the answers of
 * phaser_c_waiting_send and phaser_c_waiting_look. */
uint32_t phaser_c_level_send(paldwosk_level_task *task, uint8_t accumulator, int32_t value);
uint32_t phaser_c_level_look_at(paldwosk_level_task *task, uint8_t accumulator, int64_t *value);
/* The value that the task keeps, and its accumulator: it keeps none then. For a task that stands, or whose table was closed.
 * NOTHING: it keeps none. NOT_NOW: it waits, and its value may be sent in the round. CLOSED: there is no task. */
uint32_t phaser_c_level_kept(paldwosk_level_task *task, uint8_t *accumulator, int32_t *value);

/* Who opened a phaser to tasks that stand level, and closes it. One thread at a time may be in a call with it. */
typedef struct paldwosk_level {
  void *held; /* NULL while there is none */
} paldwosk_level;

/* The phaser goes over to these tasks, and the waiting handle holds none. They have to be all that are registered, none of
 * them twice, each SIG_WAIT in one phase which it hasn't signalled, while nobody waits: else NOT_NOW. There are 256 at most,
 * and one at least. On any answer but DONE nothing has changed: MEMORY, NOT_NOW, OPEN if there is a keeper, CLOSED if the
 * waiting handle holds no phaser. */
uint32_t phaser_c_level_open(paldwosk_level *level, paldwosk_waiting *phaser, const uint64_t *tasks, size_t count);
/* The next of those tasks, in their order, is put into `task`, which holds none. NOT_NOW: all are taken. MEMORY, OPEN: it may
 * be asked again. CLOSED: there is no keeper. */
uint32_t phaser_c_level_take(paldwosk_level *level, paldwosk_level_task *task);
/* The phaser goes back into the waiting handle, which holds none, and there is no keeper then. All tasks stand level in it:
 * those that had come haven't signalled, and what they kept isn't sent. No memory is needed. NOT_YET, and nothing has changed:
 * all have come, or another call has the phaser. OPEN: the waiting handle holds a phaser. CLOSED: there is no keeper. A task
 * keeps its handle, whose look answers CLOSED if it had come, and whose other calls answer NOT_YET or NOT_NOW. */
uint32_t phaser_c_level_close(paldwosk_level *level, paldwosk_waiting *phaser);
/* Frees the keeper, and with the last task the phaser. */
void phaser_c_level_drop(paldwosk_level *level);

/* ---- The checker */

/* Replays the text of a trace (docs/formats.md), at most 67,108,864 bytes: makes its events again, one by one. If they are
 * a run, it writes the lines of the report to `report`, else the line of the refusal, as `refused 25 NotExplained at 7`.
 * No NUL is added. *written is how many bytes the text has. If the room is too small, nothing else is written, and a second
 * call with that much room writes it, unless memory is refused to one of the two. `report` may be NULL if the room is 0. */
PALDWOSK_INLINE paldwosk_status paldwosk_replay(const char *trace, size_t length, char *report, size_t room,
                                                size_t *written) {
  uint8_t none = 0, nowhere = 0;
  if ((!trace && length) || (!report && room) || !written) return PALDWOSK_STATUS_NULL;
  (void)phaser_c_abi_1();
  return (paldwosk_status)phaser_c_replay(trace ? (const uint8_t *)trace : &none, length,
                                          report ? (uint8_t *)report : &nowhere, room, written);
}

/* Answers an events file (docs/formats.md), at most 1,048,576 bytes: makes its calls on one phaser, and writes the line of
 * each reply to `lines`, or the line of the refusal of the file. The room and *written are as for paldwosk_replay. */
PALDWOSK_INLINE paldwosk_status paldwosk_events(const char *file, size_t length, char *lines, size_t room,
                                                size_t *written) {
  uint8_t none = 0, nowhere = 0;
  if ((!file && length) || (!lines && room) || !written) return PALDWOSK_STATUS_NULL;
  (void)phaser_c_abi_1();
  return (paldwosk_status)phaser_c_events(file ? (const uint8_t *)file : &none, length,
                                          lines ? (uint8_t *)lines : &nowhere, room, written);
}

/* ---- The judge
 *
 * It is handed the events of any number of phasers, one after the other, and says of each whether it can be. So a program
 * judges its own phasers and barriers while it runs, from a ring of events or a pipe. No event is stored: the memory is
 * that of the phasers that are there and of the tasks registered on them, however long they live.
 *
 *     paldwosk_judge judge = PALDWOSK_NO_JUDGE;
 *     const paldwosk_judged_event made = {.kind = PALDWOSK_JUDGED_MAKE, .mode = PALDWOSK_SIG_WAIT, .bound = 2};
 *     paldwosk_answer answer = paldwosk_judge_new(&judge);
 *     if (answer == PALDWOSK_DONE) answer = paldwosk_judge_event(&judge, &made);
 *     if (answer != PALDWOSK_DONE) fprintf(stderr, "%s\n", paldwosk_answer_text(answer));
 *     paldwosk_judge_free(&judge);
 *
 * Under one lock for all events, note a pass, a look and a claim just after they are done, and each other event just
 * before. Then none comes before one that made it possible, unless signals wait by a bound: of such a phaser note each
 * event under the lock under which it is done. */

/* Makes a judge that has judged no event. OPEN, MEMORY. On DONE it is to be freed by paldwosk_judge_free. */
PALDWOSK_MUST_CHECK
PALDWOSK_INLINE paldwosk_answer paldwosk_judge_new(paldwosk_judge *judge) {
  if (!judge) return PALDWOSK_NULL;
  (void)phaser_c_abi_1();
  return (paldwosk_answer)phaser_c_judge_new(judge);
}

/* Frees the judge, if there is one; `judge` holds none from then on, and paldwosk_judge_new may make one for it again. */
PALDWOSK_INLINE void paldwosk_judge_free(paldwosk_judge *judge) {
  if (judge) phaser_c_judge_free(judge);
}

/* Judges one event more. DONE: it can be after those before it. Nothing has changed on BAD_KIND, BAD_MODE, BAD_OPERATORS,
 * BAD_BOUND, CLOSED and MEMORY, in this order; after MEMORY the event may be handed over again. On any other answer the
 * event can't be, which says why, and the judge is over: it answers OVER to each event from then on. Why is one of
 * NOT_MADE to SAW_OTHER, or the answer that a phaser gives to the call, as PALDWOSK_ALREADY_SIGNALLED. A task and a
 * phaser may have a number that was another's, once that has left or is gone. There is no limit of phasers. Each has room
 * for 256 tasks at once, and for 2^62 events: one task more is answered PALDWOSK_REGS_FULL. For a phaser the judge takes
 * 272 bytes for each phase of its bound, and 18 megabytes if it has none: then it is judged by one of 65,536. At a
 * barrier a bound of 2 says the same as none. */
PALDWOSK_MUST_CHECK
PALDWOSK_INLINE paldwosk_answer paldwosk_judge_event(paldwosk_judge *judge, const paldwosk_judged_event *event) {
  return judge && event ? (paldwosk_answer)phaser_c_judge_event(judge, event) : PALDWOSK_NULL;
}

/* The same as paldwosk_judge_event, and tells for whom the event had to wait. On HAD_TO_WAIT of a pass or a claim *why has
 * the phase of its task, and the tasks that owe it. If there are none, that phase is closed and its single isn't done. On
 * each other answer, and if a signal had to wait, all its numbers are 0. MEMORY also if there is none to tell it by; the
 * event may then be handed over again.
 *
 *     paldwosk_judged_why why;
 *     answer = paldwosk_judge_event_with_owing(&judge, &passed, &why);
 *     for (uint64_t at = 0; at < why.count && at < PALDWOSK_MOST_NAMED; at++)
 *       fprintf(stderr, "task %" PRIu64 " hasn't signalled phase %" PRIu64 "\n", why.tasks[at], why.phase);
 *     if (why.count > PALDWOSK_MOST_NAMED)
 *       fprintf(stderr, "nor have %" PRIu64 " more\n", why.count - PALDWOSK_MOST_NAMED); */
PALDWOSK_MUST_CHECK
PALDWOSK_INLINE paldwosk_answer paldwosk_judge_event_with_owing(paldwosk_judge *judge, const paldwosk_judged_event *event,
                                                                paldwosk_judged_why *why) {
  if (!judge || !event || !why) return PALDWOSK_NULL;
  return (paldwosk_answer)phaser_c_judge_event_with_owing(judge, event, why);
}

/* What the judge counted of the events that it accepted, and whether it is over. CLOSED: then nothing is written. */
PALDWOSK_MUST_CHECK
PALDWOSK_INLINE paldwosk_answer paldwosk_judge_totals(paldwosk_judge *judge, paldwosk_judged_totals *totals) {
  return judge && totals ? (paldwosk_answer)phaser_c_judge_totals(judge, totals) : PALDWOSK_NULL;
}

/* ---- One phaser. docs/rules.md says what each call is answered, and in which order refusals come. */

/* Makes a phaser that nobody has made yet: of these limits, with an accumulator for each of at most four operators, and
 * with a bound of 1 to 65,536 phases, or 0 for none. It takes all memory that the phaser will ever need. Answers, in this
 * order: OPEN, BAD_LIMITS, BAD_OPERATORS, BAD_BOUND, MEMORY. On DONE the phaser is to be freed by paldwosk_free. */
PALDWOSK_MUST_CHECK
PALDWOSK_INLINE paldwosk_answer paldwosk_new(paldwosk_phaser *phaser, const paldwosk_limits *limits,
                                             const paldwosk_operator *operators, size_t count, uint32_t bound) {
  uint32_t numbers[4] = {0, 0, 0, 0};
  if (!phaser || !limits || (!operators && count)) return PALDWOSK_NULL;
  for (size_t at = 0; at < count && at < 4; at++) numbers[at] = (uint32_t)operators[at];
  if (count > 4) numbers[0] = 99; /* no operator's: refused in its turn */
  (void)phaser_c_abi_1();
  return (paldwosk_answer)phaser_c_new(phaser, limits, numbers, count > 4 ? 4 : count, bound);
}

/* Frees the phaser, if there is one; `phaser` holds none from then on, and paldwosk_new may make one for it again. */
PALDWOSK_INLINE void paldwosk_free(paldwosk_phaser *phaser) {
  if (phaser) phaser_c_free(phaser);
}

/* The task makes the phaser, and is registered on it. NOT_NOW, TASKS_FULL. */
PALDWOSK_MUST_CHECK
PALDWOSK_INLINE paldwosk_answer paldwosk_make(paldwosk_phaser *phaser, uint32_t task, paldwosk_mode mode) {
  return phaser ? (paldwosk_answer)phaser_c_make(phaser, task, (uint32_t)mode) : PALDWOSK_NULL;
}

/* The parent registers the child at its own phase. NOT_REGISTERED, MORE_THAN_PARENT, TASKS_FULL, REGISTERED_TWICE,
 * REGS_FULL, HISTORY_FULL. */
PALDWOSK_MUST_CHECK
PALDWOSK_INLINE paldwosk_answer paldwosk_register(paldwosk_phaser *phaser, uint32_t parent, uint32_t child,
                                                  paldwosk_mode mode) {
  return phaser ? (paldwosk_answer)phaser_c_register(phaser, parent, child, (uint32_t)mode) : PALDWOSK_NULL;
}

/* The task signals its phase. NOT_REGISTERED, NO_SIGNAL, ALREADY_SIGNALLED, then NOT_YET on a bounded phaser, then
 * HISTORY_FULL. */
PALDWOSK_MUST_CHECK
PALDWOSK_INLINE paldwosk_answer paldwosk_signal(paldwosk_phaser *phaser, uint32_t task) {
  return phaser ? (paldwosk_answer)phaser_c_signal(phaser, task) : PALDWOSK_NULL;
}

/* The task signals, and proposes the single of this number. As paldwosk_signal, with NO_SINGLE after NO_SIGNAL, and
 * SINGLE_MISMATCH after ALREADY_SIGNALLED. */
PALDWOSK_MUST_CHECK
PALDWOSK_INLINE paldwosk_answer paldwosk_signal_single(paldwosk_phaser *phaser, uint32_t task, uint32_t number) {
  return phaser ? (paldwosk_answer)phaser_c_signal_single(phaser, task, number) : PALDWOSK_NULL;
}

/* The task asks to end its turn. On DONE *number is the phase that it passed, on CLAIMED the number of the single that
 * it runs; else it isn't written. NOT_REGISTERED, NOT_SIGNALLED, then NOT_YET, then HISTORY_FULL. */
PALDWOSK_MUST_CHECK
PALDWOSK_INLINE paldwosk_answer paldwosk_pass(paldwosk_phaser *phaser, uint32_t task, uint32_t *number) {
  return phaser && number ? (paldwosk_answer)phaser_c_pass(phaser, task, number) : PALDWOSK_NULL;
}

/* The task reports the single done that it claimed. NOT_REGISTERED, NOT_NOW. */
PALDWOSK_MUST_CHECK
PALDWOSK_INLINE paldwosk_answer paldwosk_single_done(paldwosk_phaser *phaser, uint32_t task) {
  return phaser ? (paldwosk_answer)phaser_c_single_done(phaser, task) : PALDWOSK_NULL;
}

/* The task sends a value to an accumulator, for the phase that it hasn't signalled yet. NOT_REGISTERED, NO_SIGNAL,
 * NO_ACCUMULATOR, HISTORY_FULL. */
PALDWOSK_MUST_CHECK
PALDWOSK_INLINE paldwosk_answer paldwosk_send(paldwosk_phaser *phaser, uint32_t task, uint32_t accumulator,
                                              int32_t value) {
  uint8_t index = accumulator < 255 ? (uint8_t)accumulator : 255; /* there are four at most */
  return phaser ? (paldwosk_answer)phaser_c_send(phaser, task, index, value) : PALDWOSK_NULL;
}

/* What an accumulator holds of the phase before the task's own: on DONE *value is it; else it isn't written. NOTHING if
 * there is no least and no greatest. NOT_REGISTERED, NO_WAIT, NO_ACCUMULATOR, NO_PHASE_YET, HISTORY_FULL. */
PALDWOSK_MUST_CHECK
PALDWOSK_INLINE paldwosk_answer paldwosk_look(paldwosk_phaser *phaser, uint32_t task, uint32_t accumulator,
                                              int64_t *value) {
  uint8_t index = accumulator < 255 ? (uint8_t)accumulator : 255;
  return phaser && value ? (paldwosk_answer)phaser_c_look(phaser, task, index, value) : PALDWOSK_NULL;
}

/* The task is dropped from the phaser. NOT_REGISTERED, NOT_NOW if it proposed a single that isn't done. */
PALDWOSK_MUST_CHECK
PALDWOSK_INLINE paldwosk_answer paldwosk_drop(paldwosk_phaser *phaser, uint32_t task) {
  return phaser ? (paldwosk_answer)phaser_c_drop(phaser, task) : PALDWOSK_NULL;
}

/* Whether each task that is registered and can signal has signalled the phase: *closed is 1 or 0. */
PALDWOSK_MUST_CHECK
PALDWOSK_INLINE paldwosk_answer paldwosk_is_closed(paldwosk_phaser *phaser, uint32_t phase, uint32_t *closed) {
  return phaser && closed ? (paldwosk_answer)phaser_c_is_closed(phaser, phase, closed) : PALDWOSK_NULL;
}

/* Whether an event that registers nobody and proposes nothing has no room in the history: *full is 1 or 0. */
PALDWOSK_MUST_CHECK
PALDWOSK_INLINE paldwosk_answer paldwosk_is_full(paldwosk_phaser *phaser, uint32_t *full) {
  return phaser && full ? (paldwosk_answer)phaser_c_is_full(phaser, full) : PALDWOSK_NULL;
}

/* What the values sent to an accumulator for a closed phase fold to; of a phase that isn't closed, what was folded so far.
 * On DONE *value is it; else it isn't written. NOTHING. NOT_KEPT: there is no such accumulator, the phase is too great,
 * or its fold is given up. */
PALDWOSK_MUST_CHECK
PALDWOSK_INLINE paldwosk_answer paldwosk_fold_at(paldwosk_phaser *phaser, uint32_t accumulator, uint32_t phase,
                                                 int64_t *value) {
  uint8_t index = accumulator < 255 ? (uint8_t)accumulator : 255;
  return phaser && value ? (paldwosk_answer)phaser_c_fold_at(phaser, index, phase, value) : PALDWOSK_NULL;
}

/* How many comparisons of task numbers the last call made that changes the phaser. */
PALDWOSK_MUST_CHECK
PALDWOSK_INLINE paldwosk_answer paldwosk_compared(paldwosk_phaser *phaser, uint32_t *count) {
  return phaser && count ? (paldwosk_answer)phaser_c_compared(phaser, count) : PALDWOSK_NULL;
}

/* How many events the history has. */
PALDWOSK_MUST_CHECK
PALDWOSK_INLINE paldwosk_answer paldwosk_event_count(paldwosk_phaser *phaser, uint32_t *count) {
  return phaser && count ? (paldwosk_answer)phaser_c_event_count(phaser, count) : PALDWOSK_NULL;
}

/* Writes the history as the text of a trace that has this phaser's events alone, under this number, with these tickets,
 * one for each event, in order: {"events":[[1,"p",0,"make",0,"SIG_WAIT",[],null],..],"limits":{..},"version":2}, without
 * blanks and without a newline. To have a run judged, draw a ticket for each call that adds an event, and put the entries
 * of all its phasers, finishes and tasks together, by ticket (docs/checking.md): the events of a phaser alone are no
 * run. No NUL is added; the room and *written are as for paldwosk_replay. Answers, in this order: CLOSED, BAD_TICKETS,
 * MEMORY, SHORT. */
PALDWOSK_MUST_CHECK
PALDWOSK_INLINE paldwosk_answer paldwosk_history_text(paldwosk_phaser *phaser, uint32_t number, const uint64_t *tickets,
                                                      size_t count, char *text, size_t room, size_t *written) {
  uint64_t none = 0;
  uint8_t nowhere = 0;
  if (!phaser || (!tickets && count) || (!text && room) || !written) return PALDWOSK_NULL;
  return (paldwosk_answer)phaser_c_history_text(phaser, number, tickets ? tickets : &none, count,
                                                text ? (uint8_t *)text : &nowhere, room, written);
}

#ifdef __cplusplus
}
#endif

#endif
