/* A barrier in the place of std::barrier, with a planted fault: in its third phase it lets all go where one is still
   missing, and from then on nobody waits at it. */
#include <condition_variable>
#include <cstddef>
#include <mutex>

template <class... Completion>
class faulty_barrier {
    mutable std::mutex lock;
    mutable std::condition_variable changed;
    std::ptrdiff_t parties, inside = 0, phase = 0;
    bool is_broken = false;

  public:
    using arrival_token = std::ptrdiff_t;

    static constexpr std::ptrdiff_t max() noexcept { return 1000; }

    explicit faulty_barrier(std::ptrdiff_t expected, Completion...) : parties(expected) {}

    arrival_token arrive(std::ptrdiff_t count = 1) {
        std::lock_guard guard(lock);
        std::ptrdiff_t own = phase;
        inside += count;
        if (inside == parties - (phase == 2)) {
            is_broken |= phase == 2;
            inside = 0, phase++;
            changed.notify_all();
        }
        return own;
    }

    void wait(arrival_token &&own) const {
        std::unique_lock guard(lock);
        changed.wait(guard, [&] { return phase != own || is_broken; });
    }

    void arrive_and_wait() { wait(arrive()); }

    void arrive_and_drop() {
        arrive();
        std::lock_guard guard(lock);
        parties--;
    }
};
