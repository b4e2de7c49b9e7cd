/* Three threads that take three turns at a barrier: three_threads [--early-pass]

   With --early-pass the third thread arrives once too often, and the trace doesn't see it: so the others pass before
   its first turn. At their end they arrive once more too, so that its last turn ends. */
#include <pthread.h>
#include <semaphore.h>
#include <stdbool.h>
#include <string.h>

#include "traced_barrier.h"

enum { THREADS = 3, TURNS = 3 };

static pthread_barrier_t barrier;
static sem_t passed; /* posted by each turn that ends */
static bool is_early;

static void turns(void) {
    for (int turn = 0; turn < TURNS; turn++) {
        pthread_barrier_wait(&barrier);
        sem_post(&passed);
    }
}

/* A turn that goes past the drop-in, to the barrier itself. */
static void unseen_turn(void) {
    (pthread_barrier_wait)(&barrier.real);
}

static void *other(void *unused) {
    turns();
    if (is_early)
        unseen_turn();
    return unused;
}

static void *third(void *unused) {
    if (is_early) {
        unseen_turn();
        for (int others = 1; others < THREADS; others++)
            sem_wait(&passed);
    }
    turns();
    return unused;
}

int main(int count, char **words) {
    pthread_t threads[THREADS];
    is_early = count > 1 && strcmp(words[1], "--early-pass") == 0;
    sem_init(&passed, 0, 0);
    pthread_barrier_init(&barrier, NULL, THREADS);
    for (int at = 0; at < THREADS; at++)
        pthread_create(&threads[at], NULL, at == THREADS - 1 ? third : other, NULL);
    for (int at = 0; at < THREADS; at++)
        pthread_join(threads[at], NULL);
    pthread_barrier_destroy(&barrier);
    return 0;
}
