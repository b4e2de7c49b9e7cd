/* Four threads meet. Each sends a value, waits for the others, and reads the sum of all. */
#include "paldwosk_barrier.h"
#include <inttypes.h>
#include <stdio.h>

static paldwosk_task tasks[4];
static int64_t sums[4];

static void must(paldwosk_answer answer) {
  if (answer == PALDWOSK_DONE) return;
  fprintf(stderr, "%s\n", paldwosk_answer_text(answer));
  exit(1);
}

static void *meet(void *given) {
  const paldwosk_task *task = (const paldwosk_task *)given;
  int me = (int)(task - tasks);
  must(paldwosk_barrier_send(task, 0, 1 + me));
  must(paldwosk_barrier_next(task, NULL)); /* waits for all four */
  must(paldwosk_barrier_look(task, 0, &sums[me]));
  must(paldwosk_barrier_leave(task));
  return NULL;
}

int main(void) {
  const paldwosk_operator sum = PALDWOSK_SUM;
  paldwosk_barrier barrier = PALDWOSK_NO_BARRIER;
  pthread_t threads[4];
  must(paldwosk_barrier_new(&barrier, 2, &sum, 1));
  must(paldwosk_barrier_make(&barrier, PALDWOSK_SIG_WAIT, &tasks[0]));
  for (int at = 1; at < 4; at++) must(paldwosk_barrier_join(&tasks[0], PALDWOSK_SIG_WAIT, &tasks[at]));
  for (int at = 0; at < 4; at++)
    if (pthread_create(&threads[at], NULL, meet, &tasks[at])) return 1;
  for (int at = 0; at < 4; at++) pthread_join(threads[at], NULL);
  must(paldwosk_barrier_free(&barrier));
  for (int at = 0; at < 4; at++) printf("thread %d: the sum is %" PRId64 "\n", at, sums[at]);
  return 0;
}
