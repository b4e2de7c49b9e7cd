/* paldwosk THREADS PHASES BATCHES: threads that meet at a paldwosk_barrier; see phases.h. */
#include "paldwosk_barrier.h"
#include "threads.h"

_Alignas(128) static paldwosk_barrier all = PALDWOSK_NO_BARRIER;
_Alignas(128) static paldwosk_task tasks[MOST_THREADS];

static int meet(int thread, uint64_t phase) {
  uint64_t passed = 0;
  return paldwosk_barrier_next(&tasks[thread], &passed) == PALDWOSK_DONE && passed == phase;
}

static void must(paldwosk_answer answer) {
  if (answer != PALDWOSK_DONE) stop(3, paldwosk_answer_text(answer));
}

/* By the bound 2 nobody waits who wouldn't wait anyway. */
static void make_all(void) {
  must(paldwosk_barrier_new(&all, 2, NULL, 0));
  must(paldwosk_barrier_make(&all, PALDWOSK_SIG_WAIT, &tasks[0]));
  for (int thread = 1; thread < threads; thread++)
    must(paldwosk_barrier_join(&tasks[0], PALDWOSK_SIG_WAIT, &tasks[thread]));
}

int main(int count, char **words) {
  read_words(count, words);
  make_all();
  go_through_by_threads();
  print_times();
  must(paldwosk_barrier_free(&all));
  return 0;
}
