/* The program of tests/waiting that runs include/paldwosk_barrier.h on simulated threads and memory, as C11 lets them
 * be. What these are like is said at the head of tests/simulated_memory.c. The header is as it is; only what it calls of
 * the system is replaced.
 *
 *     simulated FIRST COUNT [values]
 *
 * Runs COUNT episodes, from seed FIRST on. In each, 2 to 4 tasks go through some phases. They send, look, go on by a
 * next or by a signal and a wait, join others and leave. A fiber without a task asks who is missing. For tasks that are in
 * their call it sends, looks, joins guests and leaves. One task frees the barrier as soon as its last call is over, and
 * uses its memory. What has to hold, and else is called:
 *   - early: each task that is registered in a phase has begun to signal it, or leaves, before another passes it;
 *   - wrong fold: the folds are those of the values that were sent;
 *   - hang: all come to an end;
 *   - race: what a task wrote before its signal is seen after the pass. No two threads use a byte of the header's memory,
 *     or the archive's, without an order between them. With `values` races aren't judged;
 *   - wrong answer: each call is answered as it must be, with its own phase.
 * The barrier is made fast as often as can be: the count of the moments at which it stays slow is set back.
 *
 * The output is a line of how many episodes ended in which way, and one of the first of each way that isn't fine. A race is
 * told by its byte and by where in the program it is. A debugger shows where an episode ends by a stop at `end_episode`.
 * Status 0: all are fine; 4: some aren't. */
#include "simulated_memory.h"

#include <errno.h>
#include <limits.h>
#include <poll.h>
#include <sched.h>
#include <stdio.h>
#include <stdlib.h>
#include <string.h>
#include <sys/mman.h>
#include <sys/wait.h>
#include <unistd.h>

#include "paldwosk.h"

#define pthread_mutex_init(lock, with) simulated_init(lock)
#define pthread_mutex_destroy(lock) ((void)(lock))
#define pthread_mutex_lock simulated_lock
#define pthread_mutex_trylock simulated_trylock
#define pthread_mutex_unlock simulated_unlock
#define syscall simulated_syscall
#define sched_yield simulated_yield
#define poll(files, count, time) simulated_yield()
#define timespec_get(now, base) simulated_time(now)
#define sysconf(which) simulated_processors()
#define free simulated_free

/* The archive's calls use its memory, and that of their handles. */
#define AT(place) (use_all(place, sizeof *(place)), (place))
#define phaser_c_waiting_send(phaser, ...) phaser_c_waiting_send(AT(phaser), __VA_ARGS__)
#define phaser_c_waiting_look(phaser, ...) phaser_c_waiting_look(AT(phaser), __VA_ARGS__)
#define phaser_c_waiting_signal(phaser, ...) phaser_c_waiting_signal(AT(phaser), __VA_ARGS__)
#define phaser_c_waiting_pass(phaser, ...) phaser_c_waiting_pass(AT(phaser), __VA_ARGS__)
#define phaser_c_waiting_next(phaser, ...) phaser_c_waiting_next(AT(phaser), __VA_ARGS__)
#define phaser_c_waiting_register(phaser, ...) phaser_c_waiting_register(AT(phaser), __VA_ARGS__)
#define phaser_c_waiting_leave(phaser, ...) phaser_c_waiting_leave(AT(phaser), __VA_ARGS__)
#define phaser_c_waiting_level(phaser, ...) phaser_c_waiting_level(AT(phaser), __VA_ARGS__)

/* Of the archive's atomics two order what the header does. A come, a join, a leave and a close change the one. Whoever ends a
 * round, or closes, raises the other, at which a look looks. All of it is sequentially consistent, and here one step. */
enum { COUNT, OVER };

static void begin_change(paldwosk_level_task *task) {
  use_all(task, sizeof *task);
  begin_step();
  change_word(COUNT);
}

static uint32_t raised(uint32_t answer) {
  if (answer == PALDWOSK_DONE) change_word(OVER);
  return answer;
}

static uint32_t simulated_come(paldwosk_level_task *task) {
  begin_change(task);
  return raised(phaser_c_level_come(task));
}

static uint32_t simulated_leave(paldwosk_level_task *task) {
  begin_change(task);
  return raised(phaser_c_level_leave(task));
}

static uint32_t simulated_join(paldwosk_level_task *task, paldwosk_level_task *other) {
  use_all(other, sizeof *other);
  begin_change(task);
  return phaser_c_level_join(task, other);
}

static uint32_t simulated_close(paldwosk_level *level, paldwosk_waiting *phaser) {
  use_all(level, sizeof *level);
  use_all(phaser, sizeof *phaser);
  begin_step();
  change_word(COUNT);
  return raised(phaser_c_level_close(level, phaser));
}

static uint32_t simulated_look(paldwosk_level_task *task) {
  use_all(task, sizeof *task);
  begin_step();
  load_word(OVER);
  return phaser_c_level_look(task);
}

#define phaser_c_level_come simulated_come
#define phaser_c_level_leave simulated_leave
#define phaser_c_level_join simulated_join
#define phaser_c_level_close simulated_close
#define phaser_c_level_look simulated_look
#define phaser_c_level_send(task, ...) phaser_c_level_send(AT(task), __VA_ARGS__)
#define phaser_c_level_look_at(task, ...) phaser_c_level_look_at(AT(task), __VA_ARGS__)
#define phaser_c_level_open(level, phaser, ...) phaser_c_level_open(AT(level), AT(phaser), __VA_ARGS__)
#define phaser_c_level_take(level, task) phaser_c_level_take(AT(level), AT(task))
#define phaser_c_level_kept(task, ...) phaser_c_level_kept(AT(task), __VA_ARGS__)
#define phaser_c_level_free(task) phaser_c_level_free(AT(task))

#include "paldwosk_barrier.h"
#undef free

enum { MOST_TASKS = 6, MOST_PHASES = 10, FOREVER = 1000 };

static paldwosk_barrier barrier;

/* What a task writes for the others in a phase. It is the barrier that has to order it. Two places, in turn, are enough
 * if no task is evicted: nobody waits until an evicted one has looked. */
static int64_t written[MOST_TASKS][MOST_PHASES];

/* What the episode knows, in any order: it is hidden from the simulation. */
static struct ledger {
  paldwosk_task task[MOST_TASKS];
  int first[MOST_TASKS], last[MOST_TASKS]; /* the phases in which it is registered */
  int begun[MOST_TASKS];                   /* so many phases it has begun to signal */
  int is_in_call[MOST_TASKS], is_helped[MOST_TASKS], is_evicted[MOST_TASKS];
  int is_in_last[MOST_TASKS], is_out[MOST_TASKS]; /* its last call is under way, or over; it makes no call any more */
  int64_t sums[MOST_PHASES + 2], greatest[MOST_PHASES + 2], by_helper, seen_of_helper;
  int tasks, phases, is_helper_out, is_freed, are_evicted;
} ledger;

static void must(int holds, const char *what, int64_t of, int64_t more) {
  if (!holds) end_episode(WRONG_ANSWER, what, of, more);
}

#define DONE(call, of)                                                     \
  do {                                                                     \
    int answer_ = (int)(call);                                             \
    must(answer_ == PALDWOSK_DONE, #call, (int64_t)(of), answer_);         \
  } while (0)

/* ---- What has to hold */

static int64_t value_of(int task, int phase) { return 100 * phase + task + 1; }

static int64_t *place_of(int task, int phase) { return &written[task][ledger.are_evicted ? phase : phase % 2]; }

static void look_round(int me, int phase) {
  for (int at = 0; at < ledger.tasks; at++) {
    if (phase < ledger.first[at] || phase > ledger.last[at]) continue;
    if (ledger.begun[at] <= phase) end_episode(EARLY, "a task went on before another had come", me, at);
    if (ledger.is_evicted[at]) continue; /* the helper's leave may come before the task's signal */
    must(*place_of(at, phase) == value_of(at, phase), "what another wrote isn't there", at, *place_of(at, phase));
  }
}

static void look_at_folds(int me, int phase) {
  int64_t sum = 0, greatest = 0;
  const paldwosk_task *task = &ledger.task[me];
  DONE(paldwosk_barrier_look(task, 0, &sum), me);
  if (sum != ledger.sums[phase]) end_episode(WRONG_FOLD, "sum", sum, ledger.sums[phase]);
  if (any_below(2)) return;
  int answer = (int)paldwosk_barrier_look(task, 1, &greatest);
  int64_t is = ledger.greatest[phase];
  must(answer == (is ? PALDWOSK_DONE : PALDWOSK_NOTHING), "a look at the greatest", is, answer);
  if (greatest != is) end_episode(WRONG_FOLD, "greatest", greatest, is);
}

/* Task 0 adds up what was sent for it by the helper. */
static void look_at_help(int me, int phase) {
  int64_t sum = 0;
  if (me) return;
  DONE(paldwosk_barrier_look(&ledger.task[0], 2, &sum), 0);
  ledger.seen_of_helper += sum;
  if (phase == ledger.phases - 2 && ledger.seen_of_helper != ledger.by_helper)
    end_episode(WRONG_FOLD, "what was sent by a second thread", ledger.seen_of_helper, ledger.by_helper);
}

/* ---- What tasks do */

static void run_task(int me);

static void send_some(int me, int phase, uint32_t most) {
  for (uint32_t left = any_below(most + 1); left; left--) {
    int value = 1 + (int)any_below(50), is_greatest = !any_below(3);
    if (!is_greatest) ledger.sums[phase] += value;
    else if (ledger.greatest[phase] < value) ledger.greatest[phase] = value;
    DONE(paldwosk_barrier_send(&ledger.task[me], (uint32_t)is_greatest, value), me);
  }
}

static void join_another(int me, int phase) {
  int it = ledger.tasks;
  if (it == MOST_TASKS) return;
  ledger.tasks++;
  ledger.first[it] = FOREVER; /* until it is registered */
  DONE(paldwosk_barrier_join(&ledger.task[me], PALDWOSK_SIG_WAIT, &ledger.task[it]), me);
  ledger.last[it] = FOREVER;
  ledger.begun[it] = ledger.first[it] = phase;
  tell();
  start_fiber(run_task, it);
}

static void write_for_others(int me, int phase) {
  *place_of(me, phase) = value_of(me, phase);
  ledger.begun[me] = phase + 1;
}

static int is_helper_out(int of) { return (void)of, ledger.is_helper_out; }
static int is_left_alone(int me) { return !ledger.is_helped[me]; }

static int are_others_out(int me) {
  for (int at = 0; at < ledger.tasks; at++)
    if (at != me && !ledger.is_out[at] && !(ledger.is_in_last[at] && me >= 0)) return 0;
  return ledger.is_helper_out;
}

/* By the first whose last call was a next, while the others may be on their way out of it; else by the episode. */
static void free_barrier(int me) {
  await(are_others_out, me);
  if (ledger.is_freed) return;
  ledger.is_freed = 1;
  DONE(paldwosk_barrier_free(&barrier), me);
  overwrite(&barrier, sizeof barrier);
}

/* Whether the task is still registered after it. */
static int go_on(int me, int phase) {
  const paldwosk_task *task = &ledger.task[me];
  uint64_t passed = 77;
  int answer, is_apart = !any_below(5);
  ledger.is_in_last[me] = phase == ledger.phases - 1 && !is_apart;
  write_for_others(me, phase);
  if (is_apart) {
    DONE(paldwosk_barrier_signal(task), me);
    send_some(me, phase + 1, 1);
  }
  ledger.is_in_call[me] = 1;
  answer = (int)(is_apart ? paldwosk_barrier_wait(task, &passed) : paldwosk_barrier_next(task, &passed));
  ledger.is_in_call[me] = 0;
  if (ledger.is_evicted[me]) must(answer == PALDWOSK_DONE || answer == PALDWOSK_NOT_REGISTERED, "evicted", me, answer);
  else must(answer == PALDWOSK_DONE, "a next or a wait", me, answer);
  if (answer == PALDWOSK_DONE) must(passed == (uint64_t)phase, "the phase that was passed", (int64_t)passed, phase);
  if (answer == PALDWOSK_DONE) look_round(me, phase);
  if (ledger.is_helped[me]) await(is_left_alone, me);
  return !ledger.is_evicted[me];
}

/* Whether the task is there after this phase. */
static int make_phase(int me, int phase) {
  if (phase == ledger.phases - 3) await(is_helper_out, 0);
  if (!any_below(2)) write_hidden(&barrier.rest, 1), write_hidden(&barrier.rest_left, 1);
  send_some(me, phase, any_below(6) ? 2 : 6);
  if (!any_below(12)) join_another(me, phase);
  if (!any_below(14) && (me || phase > ledger.phases - 2)) {
    write_for_others(me, phase);
    ledger.last[me] = phase;
    DONE(paldwosk_barrier_leave(&ledger.task[me]), me);
    return 0;
  }
  if (!go_on(me, phase)) return 0;
  if (phase == ledger.phases - 1) return 0;
  if (any_below(4)) look_at_folds(me, phase);
  look_at_help(me, phase);
  return 1;
}

static void run_task(int me) {
  int phase = ledger.first[me];
  while (make_phase(me, phase)) phase++;
  ledger.is_out[me] = 1;
  if (ledger.is_in_last[me]) free_barrier(me);
}

/* ---- A fiber without a task */

/* A task that was joined for one that had called. If that had signalled, it is ahead too. Its first answer says where it
 * stands. */
static void run_guest(int me) {
  uint64_t passed = 77;
  int answer = (int)paldwosk_barrier_next(&ledger.task[me], &passed);
  if (answer == PALDWOSK_ALREADY_SIGNALLED) answer = (int)paldwosk_barrier_wait(&ledger.task[me], &passed);
  must(answer == PALDWOSK_DONE && passed < MOST_PHASES, "a guest's first call", me, answer);
  ledger.last[me] = FOREVER;
  ledger.begun[me] = ledger.first[me] = (int)passed + 1;
  look_round(me, (int)passed);
  run_task(me);
}

static void join_guest(int of) {
  paldwosk_task other = PALDWOSK_NO_TASK;
  int it = ledger.tasks;
  DONE(paldwosk_barrier_join(&ledger.task[of], PALDWOSK_SIG_WAIT, &other), of);
  if (it == MOST_TASKS || it != ledger.tasks || any_below(2)) {
    DONE(paldwosk_barrier_leave(&other), of);
    return;
  }
  ledger.tasks++;
  ledger.first[it] = FOREVER; /* until it is known */
  ledger.task[it] = other;
  start_fiber(run_guest, it);
}

static void help(int of) {
  const paldwosk_task *task = &ledger.task[of];
  int64_t value = 1 + any_below(9);
  int is_evicting = ledger.are_evicted && of && !any_below(6);
  uint32_t what = any_below(4);
  if (is_evicting) {
    ledger.is_evicted[of] = 1;
    ledger.last[of] = ledger.begun[of] - 1;
    DONE(paldwosk_barrier_leave(task), of);
  } else if (what == 0) {
    join_guest(of);
  } else if (what == 1) {
    int answer = (int)paldwosk_barrier_look(task, 2, &value);
    must(answer == PALDWOSK_DONE || answer == PALDWOSK_NO_PHASE_YET, "a second thread's look", of, answer);
  } else {
    ledger.by_helper += value;
    DONE(paldwosk_barrier_send(task, 2, (int32_t)value), of);
  }
}

static void run_helper(int times) {
  for (; times; times--) {
    uint64_t missing[MOST_TASKS + 2];
    size_t count = 0;
    for (uint32_t left = any_below(30); left; left--) simulated_yield();
    int of = (int)any_below((uint32_t)ledger.tasks);
    if (!any_below(3)) {
      DONE(paldwosk_barrier_missing(&barrier, missing, MOST_TASKS + 2, &count), 0);
    } else if (ledger.is_in_call[of] && !ledger.is_evicted[of]) {
      ledger.is_helped[of] = 1;
      hear();
      help(of);
      ledger.is_helped[of] = 0;
    }
  }
  ledger.is_helper_out = 1;
}

/* ---- Episodes */

static void run_all(int of) {
  static const paldwosk_operator operators[] = {PALDWOSK_SUM, PALDWOSK_GREATEST, PALDWOSK_SUM};
  int tasks = 2 + (int)any_below(3);
  ledger.phases = 3 + (int)any_below(MOST_PHASES - 3);
  DONE(paldwosk_barrier_init(&barrier, 2, operators, 3), of);
  barrier.pauses = any_below(2) ? any_below(6) : 0;
  if (!any_below(3)) barrier.most_pauses = barrier.pauses = 0;
  DONE(paldwosk_barrier_make(&barrier, PALDWOSK_SIG_WAIT, &ledger.task[0]), of);
  for (; ledger.tasks < tasks; ledger.tasks++) {
    ledger.last[ledger.tasks] = FOREVER;
    if (!ledger.tasks) continue;
    DONE(paldwosk_barrier_join(&ledger.task[0], PALDWOSK_SIG_WAIT, &ledger.task[ledger.tasks]), of);
  }
  ledger.is_helper_out = !any_below(3);
  ledger.are_evicted = (int)any_below(2);
  for (int at = 0; at < tasks; at++) start_fiber(run_task, at);
  if (!ledger.is_helper_out) start_fiber(run_helper, 1 + (int)any_below(12));
  free_barrier(-1);
}

/* How many episodes ended in which way, and the first of each; shared with the process that runs them, which may crash. */
static struct counts {
  long next, ends[ENDS], first[ENDS];
  char said[ENDS][300];
} *counts;

static void run_from(long end, int are_races_judged) {
  for (; counts->next < end; counts->next++) {
    char said[300] = "";
    memset(&ledger, 0, sizeof ledger);
    int how = run_episode((uint64_t)counts->next, run_all, are_races_judged, said, sizeof said);
    if (!counts->ends[how]++) {
      counts->first[how] = counts->next;
      memcpy(counts->said[how], said, sizeof said);
    }
  }
  _exit(0);
}

int main(int count, char **words) {
  static const char *const names[ENDS] = {"fine", "early", "wrong fold", "hang", "race", "wrong answer", "crash"};
  if (count < 3) return 2;
  int is_shared = MAP_SHARED | MAP_ANONYMOUS, is_fine = 1;
  counts = (struct counts *)mmap(NULL, sizeof *counts, PROT_READ | PROT_WRITE, is_shared, -1, 0);
  if (counts == MAP_FAILED) return 5;
  counts->next = strtol(words[1], NULL, 10);
  long end = counts->next + strtol(words[2], NULL, 10);
  hide_memory(&ledger, sizeof ledger);
  while (counts->next < end) {
    int status = 0;
    pid_t child = fork();
    if (child < 0) return 5;
    if (child == 0) run_from(end, count < 4);
    if (waitpid(child, &status, 0) != child) return 5;
    if (status == 0) continue;
    if (!counts->ends[CRASH]++) {
      counts->first[CRASH] = counts->next;
      snprintf(counts->said[CRASH], sizeof counts->said[CRASH], "status %d", status);
    }
    counts->next++;
  }
  for (int at = 0; at < ENDS; at++) printf("%s%s %ld", at ? ", " : "", names[at], counts->ends[at]);
  printf("\n");
  for (int at = 1; at < ENDS; at++) {
    if (!counts->ends[at]) continue;
    is_fine = 0;
    printf("the first %s: episode %ld: %s\n", names[at], counts->first[at], counts->said[at]);
  }
  return is_fine ? 0 : 4;
}
