/* Programs at the barrier of OpenMP, for tests/runtimes: openmp NAME. Where FAULTY is defined, the barrier is one that in
   its third turn lets a thread go while another is still missing. */
#include <omp.h>
#include <stdio.h>
#include <stdlib.h>
#include <string.h>
#include <unistd.h>

#include "traced_barrier.h"

static long passed;

static long counted(void) {
    return __atomic_load_n(&passed, __ATOMIC_RELAXED);
}

static void take_turns(int turns) {
    for (int turn = 0; turn != turns; turn++) {
        traced_omp_barrier();
        __atomic_add_fetch(&passed, 1, __ATOMIC_RELAXED);
        if (turns < 0 && turn % 8 == 7)
            usleep(100); /* a run without end is to leave a short trace */
    }
}

static void regions(void) { /* of two sizes, one after the other */
    for (int again = 0; again < 5; again++) {
#pragma omp parallel num_threads(3)
        take_turns(7);
#pragma omp parallel num_threads(4)
        take_turns(5);
    }
}

static void nested(void) {
    omp_set_max_active_levels(2);
#pragma omp parallel num_threads(2)
    {
        take_turns(3);
#pragma omp parallel num_threads(2)
        take_turns(4);
        take_turns(1);
    }
}

static void exit_within(void) { /* the program ends in a region, while the others take turns */
#pragma omp parallel num_threads(4)
    {
        if (omp_get_thread_num() == 0) {
            take_turns(50);
            exit(0);
        }
        take_turns(-1);
    }
}

static void *region_of_three(void *unused) {
#pragma omp parallel num_threads(3)
    take_turns(40);
    return unused;
}

static void two_roots(void) { /* two threads have a region of three each, at once: which can't be told apart */
    pthread_t made[2];
    for (int at = 0; at < 2; at++)
        pthread_create(&made[at], NULL, region_of_three, NULL);
    for (int at = 0; at < 2; at++)
        pthread_join(made[at], NULL);
}

static void turning_for_ever(void) {
#pragma omp parallel num_threads(3)
    take_turns(-1);
}

static void late(void) { /* for the faulty barrier: the last comes to the third turn once another has ended it */
#pragma omp parallel num_threads(3)
    {
        int is_last = omp_get_thread_num() == 2;
        take_turns(2);
        while (is_last && counted() <= 6)
            usleep(100);
        take_turns(3);
    }
}

int main(int count, char **words) {
    static const struct { const char *name; void (*call)(void); } calls[] = {
        {"regions", regions}, {"nested", nested}, {"exit_within", exit_within}, {"two_roots", two_roots},
        {"turning_for_ever", turning_for_ever}, {"late", late}};
    omp_set_dynamic(0);
    for (size_t at = 0; count == 2 && at < sizeof calls / sizeof *calls; at++)
        if (strcmp(words[1], calls[at].name) == 0) {
            calls[at].call();
            return 0;
        }
    return 2;
}
