/* Paldwosk for C++17: the barrier of paldwosk_barrier.h, with tasks that leave by themselves.
 *
 *     paldwosk::barrier barrier(2, {PALDWOSK_SUM});
 *     paldwosk::task first = barrier.make(PALDWOSK_SIG_WAIT), second = first.join(PALDWOSK_SIG_WAIT);
 *     .. and in the thread of each, to which its task is moved:
 *     task.send(0, 20);
 *     task.next();
 *     std::optional<int64_t> sum = task.look(0);
 *
 * What a call does, and what its caller owes, stands at its function in paldwosk_barrier.h. If a call isn't answered
 * PALDWOSK_DONE it throws a paldwosk::error. What is proved is what paldwosk_barrier.h says; this header is tested.
 *
 * The calls .._for and try_.. wait for some time at most, or not at all. They answer nothing, or false, if the time is
 * over and the call isn't. Then the call goes on, and the task's next call of the same name waits for its answer;
 * paldwosk_barrier.h says more, under WAITS WITH A TIME. A single has no such form here: its task couldn't leave. */
#ifndef PALDWOSK_HPP
#define PALDWOSK_HPP

#if __cplusplus < 201703L
#error "paldwosk.hpp needs C++17"
#endif

#include "paldwosk_barrier.h"

#include <algorithm>
#include <chrono>
#include <cmath>
#include <exception>
#include <initializer_list>
#include <memory>
#include <optional>
#include <stdexcept>
#include <string>
#include <utility>
#include <vector>

namespace paldwosk {

/* A call wasn't done. what() is the answer's text.
 *
 *     try { task.signal(); }
 *     catch (const paldwosk::error &refused) { std::puts(refused.what()); } */
class error : public std::runtime_error {
public:
  explicit error(paldwosk_answer answer) : std::runtime_error(paldwosk_answer_text(answer)), answered(answer) {}

  /* What the call was answered: never PALDWOSK_DONE. */
  paldwosk_answer answer() const noexcept { return answered; }

private:
  paldwosk_answer answered;
};

/* Throws unless the answer is PALDWOSK_DONE. */
inline void must(paldwosk_answer answer) {
  if (answer != PALDWOSK_DONE) throw error(answer);
}

/* A time as paldwosk_barrier.h takes it: milliseconds, at most 2^32 - 1 of them, and a part of one counts as one. */
template <class Count, class Period> uint32_t milliseconds_of(std::chrono::duration<Count, Period> time) {
  std::chrono::duration<double, std::milli> given = time;
  return static_cast<uint32_t>(std::clamp(std::ceil(given.count()), 0.0, double(UINT32_MAX)));
}

/* A task of a barrier. It is moved to the thread that calls by it, and leaves when it is destroyed, also if that thread
 * throws. A task that was moved from, or has left, is empty: its calls throw PALDWOSK_NULL. */
class task {
public:
  task(task &&other) noexcept
      : shared(std::move(other.shared)), mine(std::exchange(other.mine, paldwosk_task PALDWOSK_NO_TASK)) {}

  /* The task that was here leaves. */
  task &operator=(task &&other) noexcept {
    task moved(std::move(other));
    std::swap(shared, moved.shared);
    std::swap(mine, moved.mine);
    return *this;
  }

  ~task() { (void)paldwosk_barrier_leave(&mine); } /* a destructor has nobody to tell that it was refused */

  /* Makes a task for another thread, in a mode within this one's; as paldwosk_barrier_join. */
  [[nodiscard]] task join(paldwosk_mode mode) const {
    paldwosk_task child = PALDWOSK_NO_TASK;
    must(paldwosk_barrier_join(&mine, mode, &child));
    return task(shared, child);
  }

  /* Signals, and waits until the phase is over. Answers the phase, from 0 on; as paldwosk_barrier_next. */
  uint64_t next() {
    uint64_t phase = 0;
    must(paldwosk_barrier_next(&mine, &phase));
    return phase;
  }

  /* As next(), for so long at most: nothing if the time is over. As paldwosk_barrier_next_for.
   *
   *     while (!task.next_for(std::chrono::seconds(1))) std::puts("others are late"); */
  template <class Count, class Period>
  std::optional<uint64_t> next_for(std::chrono::duration<Count, Period> time) {
    uint64_t phase = 0;
    return phase_if(paldwosk_barrier_next_for(&mine, milliseconds_of(time), &phase), phase);
  }

  /* As next(), but it doesn't wait: nothing if it would have to. As paldwosk_barrier_try_next. */
  std::optional<uint64_t> try_next() {
    uint64_t phase = 0;
    return phase_if(paldwosk_barrier_try_next(&mine, &phase), phase);
  }

  /* Signals, and goes on; as paldwosk_barrier_signal. */
  void signal() { must(paldwosk_barrier_signal(&mine)); }

  /* As signal(), which waits for so long at most: whether it has signalled. As paldwosk_barrier_signal_for. */
  template <class Count, class Period> bool signal_for(std::chrono::duration<Count, Period> time) {
    return is_done(paldwosk_barrier_signal_for(&mine, milliseconds_of(time)));
  }

  /* As signal(), but it doesn't wait: whether it has signalled. As paldwosk_barrier_try_signal. */
  bool try_signal() { return is_done(paldwosk_barrier_try_signal(&mine)); }

  /* Waits until the phase is over. Answers the phase, from 0 on; as paldwosk_barrier_wait. */
  uint64_t wait() {
    uint64_t phase = 0;
    must(paldwosk_barrier_wait(&mine, &phase));
    return phase;
  }

  /* As wait(), for so long at most: nothing if the time is over. As paldwosk_barrier_wait_for. */
  template <class Count, class Period>
  std::optional<uint64_t> wait_for(std::chrono::duration<Count, Period> time) {
    uint64_t phase = 0;
    return phase_if(paldwosk_barrier_wait_for(&mine, milliseconds_of(time), &phase), phase);
  }

  /* As wait(), but it doesn't wait: the phase if it is over, else nothing. As paldwosk_barrier_try_wait. */
  std::optional<uint64_t> try_wait() {
    uint64_t phase = 0;
    return phase_if(paldwosk_barrier_try_wait(&mine, &phase), phase);
  }

  /* Sends a value to an accumulator, numbered from 0, for the phase that isn't signalled yet. */
  void send(uint32_t accumulator, int32_t value) { must(paldwosk_barrier_send(&mine, accumulator, value)); }

  /* What an accumulator holds of the phase that was passed last: nothing if it is the least or greatest of no values. */
  std::optional<int64_t> look(uint32_t accumulator) {
    int64_t value = 0;
    paldwosk_answer answer = paldwosk_barrier_look(&mine, accumulator, &value);
    if (answer == PALDWOSK_NOTHING) return std::nullopt;
    must(answer);
    return value;
  }

  /* As next(), and one of the tasks that give this number calls its run() between this phase and the next. If run()
   * throws, it counts as done and the others go on. Its own task throws that on, after it has passed.
   *
   *     task.single(1, [&] { std::puts("a phase is over"); }); */
  template <class Run> uint64_t single(uint32_t number, Run &&run) {
    auto statement = [&run](std::exception_ptr &thrown) noexcept {
      try {
        run();
      } catch (...) {
        thrown = std::current_exception();
      }
    };
    std::pair<decltype(statement) *, std::exception_ptr> given(&statement, nullptr);
    auto call = [](void *data) {
      auto *it = static_cast<decltype(given) *>(data);
      (*it->first)(it->second);
    };
    uint64_t phase = 0;
    paldwosk_answer answer = paldwosk_barrier_single(&mine, number, call, &given, &phase);
    if (given.second) std::rethrow_exception(given.second);
    must(answer);
    return phase;
  }

  /* Leaves before it is destroyed, and says if that is refused; as paldwosk_barrier_leave. */
  void leave() {
    must(paldwosk_barrier_leave(&mine));
    mine = PALDWOSK_NO_TASK;
    shared.reset();
  }

  /* No other task of the barrier has this number, or had it: barrier::missing() tells of tasks by it. */
  uint64_t number() const noexcept { return mine.number; }

private:
  friend class barrier;
  task(std::shared_ptr<paldwosk_barrier> of, paldwosk_task made) : shared(std::move(of)), mine(made) {}

  static bool is_done(paldwosk_answer answer) {
    if (answer != PALDWOSK_TIMED_OUT) must(answer);
    return answer == PALDWOSK_DONE;
  }

  /* `phase` by reference: it is read after the call whose answer this is. */
  static std::optional<uint64_t> phase_if(paldwosk_answer answer, const uint64_t &phase) {
    return is_done(answer) ? std::optional<uint64_t>(phase) : std::nullopt;
  }

  std::shared_ptr<paldwosk_barrier> shared; /* the barrier stays until its last task is gone */
  paldwosk_task mine;
};

/* A barrier for threads. It is freed when it and all its tasks are gone, in whichever order. */
class barrier {
public:
  /* The bound is 1 to 65,536 phases, and there is an accumulator for each of at most four operators, as for
   * paldwosk_barrier_new. A traced barrier keeps a trace of what is done. */
  explicit barrier(uint32_t bound, std::initializer_list<paldwosk_operator> operators = {}, bool is_traced = false)
      : shared(new paldwosk_barrier PALDWOSK_NO_BARRIER, destroy) {
    auto make = is_traced ? paldwosk_barrier_new_traced : paldwosk_barrier_new;
    must(make(shared.get(), bound, operators.begin(), operators.size()));
  }

  /* Makes the first task, in any mode; as paldwosk_barrier_make. */
  [[nodiscard]] task make(paldwosk_mode mode) {
    paldwosk_task first = PALDWOSK_NO_TASK;
    must(paldwosk_barrier_make(shared.get(), mode, &first));
    return task(shared, first);
  }

  /* The numbers of the tasks that keep others waiting; as paldwosk_barrier_missing. */
  std::vector<uint64_t> missing() const {
    std::vector<uint64_t> tasks(PALDWOSKI_MOST_MEMBERS);
    size_t count = 0;
    must(paldwosk_barrier_missing(shared.get(), tasks.data(), tasks.size(), &count));
    tasks.resize(count);
    return tasks;
  }

  /* The trace of what was done so far, as text; as paldwosk_barrier_trace. Tasks that are still there are marked. */
  std::string trace() const {
    std::string text;
    size_t written = 0;
    paldwosk_answer answer = paldwosk_barrier_trace(shared.get(), nullptr, 0, &written);
    while (answer == PALDWOSK_SHORT) { /* others may add to it between two calls */
      text.resize(written);
      answer = paldwosk_barrier_trace(shared.get(), text.data(), text.size(), &written);
    }
    must(answer);
    text.resize(written);
    return text;
  }

private:
  static void destroy(paldwosk_barrier *it) {
    if (paldwosk_barrier_free(it) != PALDWOSK_NOT_NOW) delete it; /* else somebody still waits at it */
  }

  std::shared_ptr<paldwosk_barrier> shared;
};

} /* namespace paldwosk */

#endif
