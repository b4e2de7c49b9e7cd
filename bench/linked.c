/* Measures turns of one phaser through the C interface: linked TASKS PHASERS. As `phaser_bench core turn` does, it registers so
 * many tasks, who signal in turn and then pass in turn until the history is full, phaser after phaser. It prints how many
 * calls were made, and nanoseconds of processor time for each. */
#include "paldwosk.h"

#include <inttypes.h>
#include <stdio.h>
#include <stdlib.h>
#include <time.h>

static double now(void) {
  struct timespec at;
  clock_gettime(CLOCK_PROCESS_CPUTIME_ID, &at);
  return (double)at.tv_sec * 1e9 + (double)at.tv_nsec;
}

int main(int count, char **words) {
  const paldwosk_limits limits = {4096, 64, 65536, 64, 256, 4096};
  const paldwosk_operator sum = PALDWOSK_SUM;
  uint32_t tasks = count == 3 ? (uint32_t)atoi(words[1]) : 0, phasers = count == 3 ? (uint32_t)atoi(words[2]) : 0;
  uint64_t calls = 0;
  double took = 0;
  if (tasks < 1 || tasks > 256) return 2;
  for (uint32_t made = 0; made < phasers; made++) {
    paldwosk_phaser phaser = PALDWOSK_NO_PHASER;
    uint32_t phase = 0, task;
    paldwosk_answer answer = paldwosk_new(&phaser, &limits, &sum, 1, 0);
    if (answer == PALDWOSK_DONE) answer = paldwosk_make(&phaser, 0, PALDWOSK_SIG_WAIT);
    for (task = 1; task < tasks && answer == PALDWOSK_DONE; task++)
      answer = paldwosk_register(&phaser, 0, task, PALDWOSK_SIG_WAIT);
    if (answer != PALDWOSK_DONE) return 1;
    double began = now();
    while (answer == PALDWOSK_DONE) {
      for (task = 0; task < tasks; task++) answer = paldwosk_signal(&phaser, task);
      for (task = 0; task < tasks; task++) answer = paldwosk_pass(&phaser, task, &phase);
      calls += 2 * tasks;
    }
    took += now() - began;
    paldwosk_free(&phaser);
  }
  printf("%" PRIu64 " calls, %.1f ns each\n", calls, took / (double)calls);
  return 0;
}
