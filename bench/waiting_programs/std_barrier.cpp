/* std_barrier THREADS PHASES BATCHES: threads that meet at a std::barrier of C++20; see phases.h. */
#include <barrier>
#include <optional>

#define _Alignas alignas
#include "threads.h"

_Alignas(128) static std::optional<std::barrier<>> all;

static int meet(int thread, uint64_t phase) {
  (void)thread, (void)phase;
  all->arrive_and_wait();
  return 1;
}

int main(int count, char **words) {
  read_words(count, words);
  all.emplace(threads);
  go_through_by_threads();
  print_times();
  return 0;
}
