/* The program by which tests/planted_faults runs headers that have a planted fault. Three threads go through twelve phases,
 * and the third comes late to each. Each sends a value, and looks at the sum.
 *
 * planted_faults fast: the barrier stays fast. In phase 4 a fourth task joins, which sends and comes by the third thread, and
 *   leaves in phase 8.
 * planted_faults changing: in each phase the third thread makes the barrier slow, once the others have come, and keeps a value
 *   itself. By the end of the phase it is fast again.
 * Status 0: all came through, nobody early, and each sum was right; 4: a thread went on before another had come, or saw a
 * wrong sum; 5: nobody did, but not all came through within three seconds, or a call wasn't done. */
#include "paldwosk_barrier.h"

#include <signal.h>
#include <string.h>

enum { THREADS = 3, FOURTH = 3, PHASES = 12, JOINS = 4, LEAVES = 8, SECONDS = 3, LATE = 30 }; /* so many milliseconds */

static paldwosk_barrier barrier = PALDWOSK_NO_BARRIER;
static paldwosk_task tasks[THREADS + 1];
static int came[THREADS], is_wrong, is_refused; /* atomic */
static int is_changing;

static int is_done(paldwosk_answer answer) {
  if (answer != PALDWOSK_DONE) __atomic_store_n(&is_refused, 1, __ATOMIC_SEQ_CST);
  return answer == PALDWOSK_DONE;
}

static void must(paldwosk_answer answer) { (void)is_done(answer); }

/* The time is over: some may hang. */
static void stop(int number) {
  (void)number;
  _exit(__atomic_load_n(&is_wrong, __ATOMIC_SEQ_CST) ? 4 : 5);
}

static int is_fourth_there(int phase) { return !is_changing && phase >= JOINS && phase < LEAVES; }

static void look_round(int me, int phase) {
  int64_t sum = 0, wanted = is_fourth_there(phase) ? 0x1111 : 0x111;
  for (int at = 0; at < THREADS; at++)
    if (__atomic_load_n(&came[at], __ATOMIC_SEQ_CST) <= phase) __atomic_store_n(&is_wrong, 1, __ATOMIC_SEQ_CST);
  if (is_done(paldwosk_barrier_look(&tasks[me], 0, &sum)) && sum != wanted) __atomic_store_n(&is_wrong, 1, __ATOMIC_SEQ_CST);
}

static void *come_for_fourth(void *phase) {
  (void)phase;
  must(paldwosk_barrier_next(&tasks[FOURTH], NULL));
  return NULL;
}

/* The third thread's part for the fourth task, whose next is made by a thread of its own. */
static int begin_fourth(int phase, pthread_t *thread) {
  if (is_changing) return 0;
  if (phase == JOINS) must(paldwosk_barrier_join(&tasks[2], PALDWOSK_SIG_WAIT, &tasks[FOURTH]));
  if (phase == LEAVES) must(paldwosk_barrier_leave(&tasks[FOURTH]));
  if (!is_fourth_there(phase)) return 0;
  must(paldwosk_barrier_send(&tasks[FOURTH], 0, 0x1000));
  return pthread_create(thread, NULL, come_for_fourth, NULL) == 0;
}

/* The others have come, and sleep. It is fast again once all stand: a barrier that is made slow often would rest. */
static void make_slow(void) {
  uint64_t missing[THREADS];
  size_t count = 0;
  must(paldwosk_barrier_missing(&barrier, missing, THREADS, &count));
  pthread_mutex_lock(&barrier.lock);
  barrier.rest = barrier.rest_left = 1;
  pthread_mutex_unlock(&barrier.lock);
}

static void *go_through(void *given) {
  int me = (int)((paldwosk_task *)given - tasks), has_fourth = 0;
  pthread_t fourth;
  for (int phase = 0; phase < PHASES; phase++) {
    if (me == 2) poll(NULL, 0, LATE);
    must(paldwosk_barrier_send(&tasks[me], 0, 1 << (4 * me)));
    if (me == 2 && is_changing) make_slow();
    if (me == 2) has_fourth = begin_fourth(phase, &fourth);
    if (me == 2) poll(NULL, 0, LATE);
    __atomic_store_n(&came[me], phase + 1, __ATOMIC_SEQ_CST);
    if (!is_done(paldwosk_barrier_next(&tasks[me], NULL))) return NULL; /* it knows that it didn't go on */
    look_round(me, phase);
    if (has_fourth) pthread_join(fourth, NULL);
    has_fourth = 0;
  }
  return NULL;
}

int main(int count, char **words) {
  const paldwosk_operator sum = PALDWOSK_SUM;
  pthread_t threads[THREADS];
  is_changing = count > 1 && !strcmp(words[1], "changing");
  signal(SIGALRM, stop);
  alarm(SECONDS);
  must(paldwosk_barrier_new(&barrier, 2, &sum, 1));
  must(paldwosk_barrier_make(&barrier, PALDWOSK_SIG_WAIT, &tasks[0]));
  for (int at = 1; at < THREADS; at++) must(paldwosk_barrier_join(&tasks[0], PALDWOSK_SIG_WAIT, &tasks[at]));
  for (int at = 0; at < THREADS; at++)
    if (pthread_create(&threads[at], NULL, go_through, &tasks[at])) return 3;
  for (int at = 0; at < THREADS; at++) pthread_join(threads[at], NULL);
  return is_wrong ? 4 : is_refused ? 5 : 0;
}
