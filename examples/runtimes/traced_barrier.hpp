/* A std::barrier of C++20 that leaves a trace of its run: write traced_barrier for std::barrier. The trace is written when
   the barrier is destroyed, and else as traced_barrier.h has it, which has to stand beside this file.

   A party is a task: one that only arrives is a SIG task, each other one a SIG_WAIT task. In a log by lines, where nobody
   knows what is still to come, all are SIG_WAIT tasks. What a completion function does isn't in the trace. */
#ifndef TRACED_BARRIER_HPP
#define TRACED_BARRIER_HPP

#include <barrier>
#include <cstddef>
#include <utility>

#define TRACED_LOG_ALONE
#include "traced_barrier.h"
#undef TRACED_LOG_ALONE

template <class... Completion>
class traced_barrier {
    traced_log *log;

  public:
    using real_barrier = std::barrier<Completion...>;
    real_barrier real;

    class arrival_token {
        friend traced_barrier;
        typename real_barrier::arrival_token real;
        uint64_t arrival;
        arrival_token(typename real_barrier::arrival_token &&token, uint64_t at) : real(std::move(token)), arrival(at) {}
    };

    static constexpr std::ptrdiff_t max() noexcept { return real_barrier::max(); }

    explicit traced_barrier(std::ptrdiff_t expected, Completion... completion)
        : log(traced_make((unsigned long)expected, TRACED_BY_COUNT, 0, nullptr)), real(expected, std::move(completion)...) {}

    explicit traced_barrier(std::ptrdiff_t expected) requires(sizeof...(Completion) > 0)
        : traced_barrier(expected, Completion()...) {}

    traced_barrier(const traced_barrier &) = delete;
    traced_barrier &operator=(const traced_barrier &) = delete;

    ~traced_barrier() { traced_close(log); }

    [[nodiscard]] arrival_token arrive(std::ptrdiff_t count = 1) {
        uint64_t arrival = 0;
        for (std::ptrdiff_t at = 0; at < count; at++)
            arrival = traced_draw(log, TRACED_SIGNAL, traced_who(), 0);
        return arrival_token(real.arrive(count), arrival);
    }

    void wait(arrival_token &&token) const {
        uint64_t arrival = token.arrival;
        real.wait(std::move(token.real));
        traced_draw(log, TRACED_PASS, arrival, 0);
    }

    void arrive_and_wait() {
        uint64_t arrival = traced_draw(log, TRACED_ARRIVE, traced_who(), 1);
        real.arrive_and_wait();
        traced_draw(log, TRACED_PASS, arrival, -1);
    }

    void arrive_and_drop() {
        traced_draw(log, TRACED_LEAVE, traced_who(), 0);
        real.arrive_and_drop();
    }
};

template <class... Completion>
traced_barrier(std::ptrdiff_t, Completion...) -> traced_barrier<Completion...>;

#endif
