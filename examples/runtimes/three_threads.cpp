/* Three threads that take three turns at a barrier: three_threads_cpp [--early-pass]

   With --early-pass the third thread arrives once too often, and the trace doesn't see it: so the others pass before
   its first turn. At their end they arrive once more too, so that its last turn ends. */
#include <functional>
#include <semaphore>
#include <string_view>
#include <thread>
#include <vector>

#include "traced_barrier.hpp"

constexpr int THREADS = 3, TURNS = 3;

static std::counting_semaphore passed{0}; /* released by each turn that ends */

static void turns(traced_barrier<> &barrier) {
    for (int turn = 0; turn < TURNS; turn++) {
        barrier.arrive_and_wait();
        passed.release();
    }
}

/* A turn that goes past the drop-in, to the barrier itself. */
static void unseen_turn(traced_barrier<> &barrier) { barrier.real.arrive_and_wait(); }

static void other(traced_barrier<> &barrier, bool is_early) {
    turns(barrier);
    if (is_early)
        unseen_turn(barrier);
}

static void third(traced_barrier<> &barrier, bool is_early) {
    if (is_early) {
        unseen_turn(barrier);
        for (int others = 1; others < THREADS; others++)
            passed.acquire();
    }
    turns(barrier);
}

int main(int count, char **words) {
    bool is_early = count > 1 && std::string_view(words[1]) == "--early-pass";
    traced_barrier<> barrier(THREADS);
    std::vector<std::jthread> threads;
    for (int at = 0; at < THREADS; at++)
        threads.emplace_back(at == THREADS - 1 ? third : other, std::ref(barrier), is_early);
    threads.clear(); /* waits for each */
}
