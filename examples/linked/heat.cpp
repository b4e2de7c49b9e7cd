/* Heat in a rod, by eight threads, each with a slice of it, as heat.c has it. Each thread owns its task, which leaves
 * when the thread is done, or throws. */
#include "paldwosk.hpp"
#include <cstdio>
#include <thread>

constexpr int THREADS = 8, SLICE = 4, CELLS = THREADS * SLICE, SMALL = 100;

static int32_t rod[2][CELLS + 2]; /* in thousandths of a degree; each step reads one of the two, and writes the other */
static int steps[THREADS];

/* A step of a slice, and how much its cells changed at most. */
static int32_t step(const int32_t *from, int32_t *to, int first) {
  int32_t greatest = 0;
  for (int at = first; at < first + SLICE; at++) {
    int32_t change = (from[at - 1] - 2 * from[at] + from[at + 1]) / 4;
    to[at] = from[at] + change;
    if (change < 0) change = -change;
    if (change > greatest) greatest = change;
  }
  return greatest;
}

static void heat(paldwosk::task task, int me) {
  int count = 0;
  for (int64_t greatest = SMALL + 1; greatest > SMALL; count++) {
    task.send(0, step(rod[count % 2], rod[(count + 1) % 2], 1 + me * SLICE));
    task.next(); /* all have written this step, and nobody reads the one before any more */
    greatest = task.look(0).value();
  }
  steps[me] = count;
}

int main() {
  paldwosk::barrier barrier(2, {PALDWOSK_GREATEST});
  std::vector<paldwosk::task> tasks;
  std::vector<std::thread> threads;
  rod[0][0] = rod[1][0] = 100000; /* one end is kept at 100 degrees, and the other at none */
  tasks.push_back(barrier.make(PALDWOSK_SIG_WAIT));
  for (int at = 1; at < THREADS; at++) tasks.push_back(tasks[0].join(PALDWOSK_SIG_WAIT));
  for (auto &task : tasks) threads.emplace_back(heat, std::move(task), static_cast<int>(threads.size()));
  for (auto &thread : threads) thread.join();
  for (int at = 1; at < THREADS; at++)
    if (steps[at] != steps[0]) return 1;
  std::printf("%d steps\n", steps[0]);
  for (int at = 1; at <= CELLS; at++) std::printf("%d%c", rod[steps[0] % 2][at] / 1000, at % SLICE ? ' ' : '\n');
}
