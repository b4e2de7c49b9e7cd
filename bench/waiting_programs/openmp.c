/* openmp THREADS PHASES BATCHES: threads of OpenMP that meet at its barrier; see phases.h. */
#include "phases.h"

#include <omp.h>

static int meet(int thread, uint64_t phase) {
  (void)thread, (void)phase;
#pragma omp barrier
  return 1;
}

int main(int count, char **words) {
  read_words(count, words);
  omp_set_dynamic(0);
#pragma omp parallel num_threads(threads)
  {
    if (omp_get_num_threads() != threads) stop(3, "OpenMP gives fewer threads");
    go_through(omp_get_thread_num());
  }
  print_times();
  return 0;
}
