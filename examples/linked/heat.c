/* Heat in a rod, by eight threads, each with a slice of it. In each step each thread sends the greatest change of its
 * cells; the barrier folds these, so all see the same, and stop after the same step. */
#include "paldwosk_barrier.h"
#include <inttypes.h>
#include <stdio.h>

enum { THREADS = 8, SLICE = 4, CELLS = THREADS * SLICE, SMALL = 100 };

static int32_t rod[2][CELLS + 2]; /* in thousandths of a degree; each step reads one of the two, and writes the other */
static paldwosk_task tasks[THREADS];
static int steps[THREADS];

static void must(paldwosk_answer answer) {
  if (answer == PALDWOSK_DONE) return;
  fprintf(stderr, "%s\n", paldwosk_answer_text(answer));
  exit(1);
}

/* A step of a slice, and how much its cells changed at most. */
static int32_t step(const int32_t *from, int32_t *to, int first) {
  int32_t greatest = 0;
  for (int at = first; at < first + SLICE; at++) {
    int32_t change = (from[at - 1] - 2 * from[at] + from[at + 1]) / 4;
    to[at] = from[at] + change;
    if (change < 0) change = -change;
    if (change > greatest) greatest = change;
  }
  return greatest;
}

static void *heat(void *given) {
  const paldwosk_task *task = (const paldwosk_task *)given;
  int me = (int)(task - tasks), count = 0;
  int64_t greatest = SMALL + 1;
  while (greatest > SMALL) {
    must(paldwosk_barrier_send(task, 0, step(rod[count % 2], rod[(count + 1) % 2], 1 + me * SLICE)));
    must(paldwosk_barrier_next(task, NULL)); /* all have written this step, and nobody reads the one before any more */
    must(paldwosk_barrier_look(task, 0, &greatest));
    count++;
  }
  steps[me] = count;
  must(paldwosk_barrier_leave(task));
  return NULL;
}

int main(void) {
  const paldwosk_operator greatest = PALDWOSK_GREATEST;
  paldwosk_barrier barrier = PALDWOSK_NO_BARRIER;
  pthread_t threads[THREADS];
  rod[0][0] = rod[1][0] = 100000; /* one end is kept at 100 degrees, and the other at none */
  must(paldwosk_barrier_new(&barrier, 2, &greatest, 1));
  must(paldwosk_barrier_make(&barrier, PALDWOSK_SIG_WAIT, &tasks[0]));
  for (int at = 1; at < THREADS; at++) must(paldwosk_barrier_join(&tasks[0], PALDWOSK_SIG_WAIT, &tasks[at]));
  for (int at = 0; at < THREADS; at++)
    if (pthread_create(&threads[at], NULL, heat, &tasks[at])) return 1;
  for (int at = 0; at < THREADS; at++) pthread_join(threads[at], NULL);
  must(paldwosk_barrier_free(&barrier));
  for (int at = 1; at < THREADS; at++)
    if (steps[at] != steps[0]) return 1;
  printf("%d steps\n", steps[0]);
  for (int at = 1; at <= CELLS; at++) printf("%" PRId32 "%c", rod[steps[0] % 2][at] / 1000, at % SLICE ? ' ' : '\n');
  return 0;
}
