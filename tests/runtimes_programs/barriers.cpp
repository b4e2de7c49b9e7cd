/* Programs at barriers of C++20, for tests/runtimes: barriers NAME. Where FAULTY is defined, the barrier below the drop-in
   is that of faulty_barrier.hpp. */
#include <atomic>
#include <chrono>
#include <cstdlib>
#include <cstring>
#include <functional>
#include <semaphore>
#include <thread>
#include <vector>

#ifdef FAULTY
#include "faulty_barrier.hpp"
#endif
#include "traced_barrier.hpp"

static std::atomic<long> passed;

static void until(long turns) {
    while (passed.load(std::memory_order_relaxed) < turns)
        std::this_thread::sleep_for(std::chrono::microseconds(100));
}

static void together(int threads, const std::function<void(int)> &work) {
    std::vector<std::thread> all;
    for (int number = 0; number < threads; number++)
        all.emplace_back(work, number);
    for (auto &one : all)
        one.join();
}

static void joined() {
    long completed = 0;
    traced_barrier barrier(4, [&]() noexcept { completed++; });
    together(4, [&](int) {
        for (int turn = 0; turn < 50; turn++)
            barrier.arrive_and_wait();
    });
    if (completed != 50)
        std::exit(1);
}

static void split() { /* arrive, and wait later; a token of the phase before */
    traced_barrier<> barrier(3);
    together(3, [&](int) {
        for (int turn = 0; turn < 30; turn++) {
            auto token = barrier.arrive();
            barrier.wait(std::move(token));
        }
    });
    auto one = barrier.arrive();
    auto rest = barrier.arrive(2);
    barrier.wait(std::move(rest));
    auto next = barrier.arrive(3);
    barrier.wait(std::move(one));
    barrier.wait(std::move(next));
}

static void producer() { /* it only arrives: a SIG task. Its permits keep it in the phase. */
    traced_barrier<> barrier(3);
    std::counting_semaphore<> permits(0);
    together(3, [&](int number) {
        for (int turn = 0; turn < 30; turn++)
            if (number == 0) {
                (void)barrier.arrive();
                permits.acquire(), permits.acquire();
            } else {
                barrier.arrive_and_wait();
                permits.release();
            }
    });
}

static void dropping() { /* each thread leaves after some turns */
    traced_barrier<> barrier(5);
    together(5, [&](int number) {
        for (int turn = 0; turn < 5 * number; turn++)
            barrier.arrive_and_wait();
        barrier.arrive_and_drop();
    });
}

static void many() { /* more barriers, in structs; a completion function by default */
    struct noted { void operator()() noexcept {} };
    struct cell { int before; traced_barrier<noted> barrier{2}; };
    std::vector<cell> cells(10);
    together(2, [&](int) {
        for (auto &cell : cells)
            cell.barrier.arrive_and_wait();
    });
}

static void turning(int threads) {
    auto *barrier = new traced_barrier<>(threads);
    for (int at = 0; at < threads; at++)
        std::thread([=] {
            for (int turn = 1;; turn++) {
                barrier->arrive_and_wait();
                passed++;
                if (turn % 8 == 0) /* so that the trace is short */
                    std::this_thread::sleep_for(std::chrono::microseconds(100));
            }
        }).detach();
}

static void still_turning() { /* main ends while its threads take turns */
    turning(4);
    until(300);
}

static void turning_for_ever() {
    turning(3);
    std::this_thread::sleep_for(std::chrono::hours(1));
}

static void late() { /* for the faulty barrier: the last comes to the third turn once another has ended it */
    traced_barrier<> barrier(3);
    together(3, [&](int number) {
        for (int turn = 0; turn < 5; turn++) {
            if (turn == 2 && number == 2)
                until(7);
            if (number == 1) {
                auto token = barrier.arrive();
                barrier.wait(std::move(token));
            } else
                barrier.arrive_and_wait();
            passed++;
        }
    });
}

int main(int count, char **words) {
    const struct { const char *name; void (*call)(); } calls[] = {
        {"joined", joined}, {"split", split}, {"producer", producer}, {"dropping", dropping}, {"many", many},
        {"still_turning", still_turning}, {"turning_for_ever", turning_for_ever}, {"late", late}};
    for (auto &one : calls)
        if (count == 2 && std::strcmp(words[1], one.name) == 0) {
            one.call();
            return 0;
        }
    return 2;
}
