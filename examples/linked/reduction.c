/* The sum, the least and the greatest of a table, by four threads, each with a part of it; all see what all came to. */
#include "paldwosk_barrier.h"
#include <inttypes.h>
#include <stdio.h>

enum { THREADS = 4, PART = 250, COUNT = THREADS * PART };

static int32_t table[COUNT];
static paldwosk_task tasks[THREADS];
static int64_t seen[THREADS][3];

static void must(paldwosk_answer answer) {
  if (answer == PALDWOSK_DONE) return;
  fprintf(stderr, "%s\n", paldwosk_answer_text(answer));
  exit(1);
}

static void *reduce(void *given) {
  const paldwosk_task *task = (const paldwosk_task *)given;
  const int me = (int)(task - tasks);
  const int32_t *part = &table[me * PART];
  int32_t sum = 0, least = part[0], greatest = part[0];
  for (int at = 0; at < PART; at++) {
    sum += part[at];
    least = part[at] < least ? part[at] : least;
    greatest = part[at] > greatest ? part[at] : greatest;
  }
  must(paldwosk_barrier_send(task, 0, sum));
  must(paldwosk_barrier_send(task, 1, least));
  must(paldwosk_barrier_send(task, 2, greatest));
  must(paldwosk_barrier_next(task, NULL));
  for (uint32_t at = 0; at < 3; at++) must(paldwosk_barrier_look(task, at, &seen[me][at]));
  must(paldwosk_barrier_leave(task));
  return NULL;
}

int main(void) {
  const paldwosk_operator operators[3] = {PALDWOSK_SUM, PALDWOSK_LEAST, PALDWOSK_GREATEST};
  paldwosk_barrier barrier = PALDWOSK_NO_BARRIER;
  pthread_t threads[THREADS];
  for (int at = 0; at < COUNT; at++) table[at] = (at * 7919) % 10007 - 5000;
  must(paldwosk_barrier_new(&barrier, 2, operators, 3));
  must(paldwosk_barrier_make(&barrier, PALDWOSK_SIG_WAIT, &tasks[0]));
  for (int at = 1; at < THREADS; at++) must(paldwosk_barrier_join(&tasks[0], PALDWOSK_SIG_WAIT, &tasks[at]));
  for (int at = 0; at < THREADS; at++)
    if (pthread_create(&threads[at], NULL, reduce, &tasks[at])) return 1;
  for (int at = 0; at < THREADS; at++) pthread_join(threads[at], NULL);
  must(paldwosk_barrier_free(&barrier));
  for (int at = 0; at < THREADS; at++)
    printf("thread %d: sum %" PRId64 ", least %" PRId64 ", greatest %" PRId64 "\n", at, seen[at][0], seen[at][1],
           seen[at][2]);
  return 0;
}
