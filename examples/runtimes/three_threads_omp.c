/* Three threads of OpenMP that take three turns at its barrier: three_threads_omp [--early-pass]

   With --early-pass the third thread arrives once too often, and the trace doesn't see it: so the others pass before
   its first turn. At their end they arrive once more too, so that its last turn ends. */
#include <omp.h>
#include <sched.h>
#include <stdatomic.h>
#include <stdbool.h>
#include <string.h>

#include "traced_barrier.h"

enum { THREADS = 3, TURNS = 3 };

static atomic_int passed; /* turns that ended */

static void turns(void) {
    for (int turn = 0; turn < TURNS; turn++) {
        traced_omp_barrier();
        atomic_fetch_add(&passed, 1);
    }
}

/* A turn that goes past the drop-in. */
static void unseen_turn(void) {
#pragma omp barrier
}

static void work(bool is_early, bool is_third) {
    if (is_early && is_third) {
        unseen_turn();
        while (atomic_load(&passed) < THREADS - 1)
            sched_yield();
    }
    turns();
    if (is_early && !is_third)
        unseen_turn();
}

int main(int count, char **words) {
    bool is_early = count > 1 && strcmp(words[1], "--early-pass") == 0;
    omp_set_dynamic(0);
#pragma omp parallel num_threads(THREADS)
    work(is_early, omp_get_thread_num() == THREADS - 1);
    return 0;
}
