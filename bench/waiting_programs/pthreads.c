/* pthreads THREADS PHASES BATCHES: threads that meet at a pthread_barrier_t; see phases.h. */
#include "threads.h"

_Alignas(128) static pthread_barrier_t all;

static int meet(int thread, uint64_t phase) {
  (void)thread, (void)phase;
  int answer = pthread_barrier_wait(&all);
  return answer == 0 || answer == PTHREAD_BARRIER_SERIAL_THREAD;
}

int main(int count, char **words) {
  read_words(count, words);
  if (pthread_barrier_init(&all, NULL, (unsigned)threads) != 0) stop(3, "there is no memory for the barrier");
  go_through_by_threads();
  print_times();
  return 0;
}
