/* Threads that meet at one barrier of pthreads: threads turns WIDTH LENGTH

   WIDTH threads meet LENGTH times. Printed are nanoseconds on the clock for one round of one thread. The best of several
   runs counts, after some that warm up. */
#include <pthread.h>
#include <stdio.h>
#include <stdlib.h>
#include <string.h>
#include <time.h>

enum { WARM = 5, RUNS = 10 };

struct meeting {
    pthread_barrier_t gate, all;
    int rounds;
};

static void *take_turns(void *shared) {
    struct meeting *meeting = shared;
    pthread_barrier_wait(&meeting->gate);
    pthread_barrier_wait(&meeting->gate);
    for (int round = 0; round < meeting->rounds; round++)
        pthread_barrier_wait(&meeting->all);
    pthread_barrier_wait(&meeting->gate);
    return NULL;
}

static double now(void) {
    struct timespec time;
    clock_gettime(CLOCK_MONOTONIC, &time);
    return 1e9 * time.tv_sec + time.tv_nsec;
}

/* Nanoseconds from when all threads have started until the last has made its rounds. */
static double turns(int width, int rounds) {
    struct meeting meeting = {.rounds = rounds};
    pthread_t threads[width];
    pthread_barrier_init(&meeting.gate, NULL, width + 1);
    pthread_barrier_init(&meeting.all, NULL, width);
    for (int at = 0; at < width; at++)
        pthread_create(&threads[at], NULL, take_turns, &meeting);
    pthread_barrier_wait(&meeting.gate);
    double begun = now();
    pthread_barrier_wait(&meeting.gate);
    pthread_barrier_wait(&meeting.gate);
    double took = now() - begun;
    for (int at = 0; at < width; at++)
        pthread_join(threads[at], NULL);
    pthread_barrier_destroy(&meeting.gate);
    pthread_barrier_destroy(&meeting.all);
    return took;
}

int main(int count, char **words) {
    if (count != 4 || strcmp(words[1], "turns") != 0) {
        fprintf(stderr, "threads: threads turns WIDTH LENGTH\n");
        return 2;
    }
    int width = atoi(words[2]), length = atoi(words[3]);
    double least = 0;
    for (int run = 0; run < WARM + RUNS; run++) {
        double took = turns(width, length);
        if (run == WARM || took < least)
            least = took;
    }
    printf("%.1f\n", least / ((double)width * length));
    return 0;
}
