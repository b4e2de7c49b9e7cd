/* The program by which tests/waiting calls the barrier from C++, through include/paldwosk.hpp. Status 4: something
 * wasn't as it must be, which standard error names. */
#include "../include/paldwosk.hpp"

#include <atomic>
#include <chrono>
#include <cstdio>
#include <thread>

static std::atomic<int> faults{0};

#define MUST(holds)                                                                                                    \
  do {                                                                                                                 \
    if (!(holds)) faults++, std::fprintf(stderr, "waiting_hpp: line %d: %s\n", __LINE__, #holds);                      \
  } while (0)

/* What the call throws; PALDWOSK_DONE if it doesn't. */
template <class Call> static paldwosk_answer thrown_by(Call &&call) {
  try {
    call();
  } catch (const paldwosk::error &refused) {
    MUST(std::string(refused.what()) == paldwosk_answer_text(refused.answer()));
    return refused.answer();
  }
  return PALDWOSK_DONE;
}

static std::vector<paldwosk::task> party(paldwosk::barrier &barrier, int count) {
  std::vector<paldwosk::task> tasks;
  tasks.push_back(barrier.make(PALDWOSK_SINGLE));
  while ((int)tasks.size() < count) tasks.push_back(tasks[0].join(PALDWOSK_SINGLE));
  return tasks;
}

static void await_missing(const paldwosk::barrier &barrier, const std::vector<uint64_t> &wanted) {
  for (int tried = 0; tried < 20000 && barrier.missing() != wanted; tried++)
    std::this_thread::sleep_for(std::chrono::milliseconds(1));
  MUST(barrier.missing() == wanted);
}

static void wrong() {
  MUST(thrown_by([] { paldwosk::barrier barrier(0); }) == PALDWOSK_BAD_BOUND);
  paldwosk::barrier barrier(2, {PALDWOSK_SUM, PALDWOSK_LEAST});
  paldwosk::task task = barrier.make(PALDWOSK_SIG_WAIT);
  MUST(thrown_by([&] { (void)barrier.make(PALDWOSK_SIG); }) == PALDWOSK_NOT_NOW);
  MUST(thrown_by([&] { (void)task.join(PALDWOSK_SINGLE); }) == PALDWOSK_MORE_THAN_PARENT);
  MUST(thrown_by([&] { task.wait(); }) == PALDWOSK_NOT_SIGNALLED);
  MUST(thrown_by([&] { task.look(0); }) == PALDWOSK_NO_PHASE_YET);
  MUST(thrown_by([&] { task.send(2, 1); }) == PALDWOSK_NO_ACCUMULATOR);
  MUST(thrown_by([&] { task.single(1, [] {}); }) == PALDWOSK_NO_SINGLE);
  MUST(thrown_by([&] { barrier.trace(); }) == PALDWOSK_NOT_KEPT);
  task.send(0, 40);
  task.send(0, 2);
  task.signal();
  MUST(thrown_by([&] { task.signal(); }) == PALDWOSK_ALREADY_SIGNALLED);
  MUST(task.wait() == 0 && task.look(0) == 42 && task.look(1) == std::nullopt);
  task.leave();
  MUST(thrown_by([&] { task.next(); }) == PALDWOSK_NULL);
  MUST(thrown_by([&] { task.leave(); }) == PALDWOSK_NULL);
}

/* The others go on without a task that is destroyed: by the end of its block, by another that is moved to its place, and
 * by what a thread throws. */
static void leaving() {
  paldwosk::barrier barrier(2);
  auto tasks = party(barrier, 4);
  { paldwosk::task ends = std::move(tasks[1]); }
  tasks[2] = std::move(tasks[3]);
  MUST(tasks[2].number() == 3);
  std::thread other([task = std::move(tasks[2])]() mutable {
    try {
      paldwosk::task mine = std::move(task);
      MUST(mine.next() == 0);
      throw 5;
    } catch (int) {
    }
  });
  MUST(tasks[0].next() == 0 && tasks[0].next() == 1);
  other.join();
  MUST(thrown_by([&] { tasks[1].next(); }) == PALDWOSK_NULL);
}

/* Both propose, so one of them runs it; it throws, and the other passes all the same. */
static void throwing_single() {
  paldwosk::barrier barrier(2);
  auto tasks = party(barrier, 2);
  std::atomic<int> caught{0};
  int runs = 0;
  auto propose = [&](paldwosk::task &task) {
    try {
      MUST(task.single(7, [&runs] { runs++, throw 5; }) == 0);
    } catch (int) {
      caught++;
    }
    MUST(task.single(8, [&runs] { runs += 10; }) == 1 && runs == 11);
  };
  std::thread other([&] { propose(tasks[1]); });
  propose(tasks[0]);
  other.join();
  MUST(caught == 1);
}

static void missing() {
  paldwosk::barrier barrier(2);
  auto tasks = party(barrier, 3);
  MUST(barrier.missing().empty());
  std::thread other([&] { MUST(tasks[0].next() == 0); });
  await_missing(barrier, {1, 2});
  tasks[2].signal();
  MUST(barrier.missing() == std::vector<uint64_t>{1});
  tasks[1].signal();
  other.join();
}

/* A task outlives its barrier, and goes on. */
static void outliving() {
  std::vector<paldwosk::task> tasks;
  {
    paldwosk::barrier first(2), barrier(std::move(first));
    tasks = party(barrier, 2);
  }
  std::thread other([&] { MUST(tasks[1].next() == 0); });
  MUST(tasks[0].next() == 0);
  other.join();
}

/* The sends 3 and 4 are of phase 0. The task has signalled that when it sends 5. */
static void timed() {
  using namespace std::chrono;
  paldwosk::barrier barrier(2, {PALDWOSK_SUM});
  auto tasks = party(barrier, 2);
  auto began = steady_clock::now();
  tasks[0].send(0, 3);
  MUST(tasks[0].next_for(milliseconds(50)) == std::nullopt);
  MUST(steady_clock::now() - began >= milliseconds(50));
  MUST(tasks[0].try_next() == std::nullopt && barrier.missing() == std::vector<uint64_t>{1});
  MUST(thrown_by([&] { tasks[0].wait(); }) == PALDWOSK_NOT_NOW);
  MUST(thrown_by([&] { tasks[0].try_signal(); }) == PALDWOSK_NOT_NOW);
  tasks[0].send(0, 5);
  tasks[1].send(0, 4);
  MUST(tasks[1].try_next() == 0 && tasks[0].next_for(0.5s) == 0 && tasks[0].look(0) == 7);
  MUST(tasks[0].try_signal() && tasks[0].try_wait() == std::nullopt);
  MUST(tasks[0].wait_for(nanoseconds(1)) == std::nullopt);
  std::thread other([&] { MUST(tasks[1].next_for(hours(24 * 365)) == 1); });
  MUST(tasks[0].wait_for(minutes(1)) == 1 && tasks[0].look(0) == 5);
  other.join();
  MUST(paldwosk::milliseconds_of(nanoseconds(1)) == 1 && paldwosk::milliseconds_of(milliseconds(-7)) == 0);
  MUST(paldwosk::milliseconds_of(seconds(2)) == 2000 && paldwosk::milliseconds_of(hours(9999)) == UINT32_MAX);
}

/* By the bound 1 the signal of phase 1 waits for the waiter. A task leaves by itself while its call goes on. */
static void timed_at_the_bound() {
  paldwosk::barrier barrier(1);
  auto tasks = party(barrier, 1);
  paldwosk::task signals = tasks[0].join(PALDWOSK_SIG), waits = tasks[0].join(PALDWOSK_WAIT);
  tasks[0].leave();
  MUST(signals.next() == 0 && !signals.signal_for(std::chrono::milliseconds(1)) && !signals.try_signal());
  MUST(waits.wait() == 0 && waits.try_wait() == 1 && waits.try_wait() == std::nullopt);
  MUST(signals.signal_for(std::chrono::minutes(1)) && signals.try_wait() == 1);
  { paldwosk::task ends = std::move(signals); }
  MUST(waits.try_wait() == 2); /* nobody signals any more */
}

/* Of a header's functions and variables all files have the same one. The other file is made by tests/waiting. */
#ifdef WITH_ANOTHER_FILE
extern const void *const there[3];

static void one_definition() {
  const void *const here[3] = {(const void *)&paldwosk_barrier_next, (const void *)&paldwosk_answer_text,
                               (const void *)&paldwoski_forks};
  for (int at = 0; at < 3; at++) MUST(here[at] == there[at]);
}
#else
static void one_definition() {}
#endif

static void traced() {
  static char report[1000];
  paldwosk::barrier barrier(2, {}, true);
  auto tasks = party(barrier, 1);
  tasks[0].next();
  std::string text = barrier.trace();
  size_t written = 0;
  MUST(paldwosk_replay(text.data(), text.size(), report, sizeof report - 1, &written) == PALDWOSK_STATUS_DONE);
  MUST(std::string(report, written).find("totals registered 1 signals 1 passes 1 drops 1") != std::string::npos);
  MUST(std::string(report, written).find("task 0 refused 21 NoFinish") != std::string::npos); /* it is still there */
}

int main() {
  wrong();
  leaving();
  throwing_single();
  missing();
  outliving();
  timed();
  timed_at_the_bound();
  one_definition();
  traced();
  return faults ? 4 : 0;
}
