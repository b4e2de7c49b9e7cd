/* Programs at barriers of pthreads, for tests/runtimes: pthreads NAME. Each name is a function of its own below. Linked
   with faulty_barrier.c the barrier lets threads go before the last has arrived. */
#include <pthread.h>
#include <sched.h>
#include <signal.h>
#include <stdio.h>
#include <stdlib.h>
#include <string.h>
#include <unistd.h>

#include "traced_barrier.h"

struct pool {
    pthread_barrier_t start, barrier;
    int threads, turns;
    long passed; /* turns that ended */
};

static struct pool pool;
static int last_number;

static void *take_turns(void *unused) {
    for (int turn = 0; turn != pool.turns; turn++) {
        pthread_barrier_wait(&pool.barrier);
        __atomic_add_fetch(&pool.passed, 1, __ATOMIC_RELAXED);
        if (pool.turns < 0 && turn % 8 == 7)
            usleep(100); /* a run without end is to leave a short trace */
    }
    return unused;
}

/* The last thread comes to its third turn once another thread has ended it: a right barrier would wait for ever. */
static void *take_turns_late(void *unused) {
    int is_last = __atomic_add_fetch(&last_number, 1, __ATOMIC_RELAXED) == pool.threads;
    for (int turn = 0; turn != pool.turns; turn++) {
        while (is_last && turn == 2 && __atomic_load_n(&pool.passed, __ATOMIC_RELAXED) <= 2 * pool.threads)
            usleep(100);
        pthread_barrier_wait(&pool.barrier);
        __atomic_add_fetch(&pool.passed, 1, __ATOMIC_RELAXED);
        usleep(pool.turns < 0 ? 100 : 0); /* so that the log isn't full at once */
    }
    return unused;
}

static void begin(int threads, int turns, int started, void *(*work)(void *), pthread_t *made) {
    pool.threads = threads, pool.turns = turns;
    pthread_barrier_init(&pool.barrier, NULL, (unsigned)threads);
    for (int at = 0; at < started; at++)
        pthread_create(&made[at], NULL, work, NULL);
}

static void join_all(pthread_t *made, int threads) {
    for (int at = 0; at < threads; at++)
        pthread_join(made[at], NULL);
}

static void until(long passed) {
    while (__atomic_load_n(&pool.passed, __ATOMIC_RELAXED) < passed)
        usleep(100);
}

static pthread_t made[400];

static void joined(void) { /* joined and destroyed; and made again */
    for (int again = 0; again < 2; again++) {
        begin(4, 50, 4, take_turns, made);
        join_all(made, 4);
        pthread_barrier_destroy(&pool.barrier);
    }
}

static void never_destroyed(void) {
    begin(3, 5, 3, take_turns, made);
    join_all(made, 3);
}

static void still_turning(void) { /* the program ends while its threads take turns */
    begin(4, -1, 4, take_turns, made);
    until(200 + getpid() % 300);
}

static void still_waiting(void) { /* it ends while two of three wait */
    begin(3, 7, 2, take_turns, made);
    usleep(2000);
}

static void main_leaves(void) { /* main ends by pthread_exit, and its threads go on */
    begin(3, 300, 3, take_turns, made);
    pthread_exit(NULL);
}

static void hang(void) {
    begin(3, 2, 2, take_turns, made);
    join_all(made, 2);
}

static void turning_for_ever(void) {
    begin(3, -1, 3, take_turns, made);
    join_all(made, 3);
}

static void *come_and_go_once(void *unused) {
    pthread_barrier_wait(&pool.barrier);
    return unused;
}

static void come_and_go(void) { /* new threads for each turn, and then a pool while the last pool is idle */
    begin(3, 20, 0, NULL, NULL);
    for (int turn = 0; turn < 20; turn++) {
        for (int at = 0; at < 3; at++)
            pthread_create(&made[at], NULL, come_and_go_once, NULL);
        join_all(made, 3);
    }
    pthread_barrier_destroy(&pool.barrier);
}

static int is_open;

static void *hold(void *unused) {
    take_turns(NULL);
    while (!__atomic_load_n(&is_open, __ATOMIC_ACQUIRE))
        usleep(100);
    return unused;
}

static void two_pools(void) { /* two pools of three, one after the other, at a barrier of three */
    begin(3, 1, 3, hold, made);
    until(3);
    for (int at = 3; at < 6; at++)
        pthread_create(&made[at], NULL, hold, NULL);
    until(6);
    __atomic_store_n(&is_open, 1, __ATOMIC_RELEASE);
    join_all(made, 6);
}

static void too_many(void) { /* six threads at once at a barrier of two */
    begin(2, -1, 6, take_turns, made);
    until(500);
}

static void full(void) {
    begin(2, 20000, 2, take_turns, made);
    join_all(made, 2);
    pthread_barrier_destroy(&pool.barrier);
}

static void many_parties(void) {
    begin(300, 2, 300, take_turns, made);
    join_all(made, 300);
    pthread_barrier_destroy(&pool.barrier);
}

struct gate { pthread_barrier_t barrier; char rest[40]; };

static void *destroy_at_once(void *unused) {
    struct gate *gate = unused;
    if (pthread_barrier_wait(&gate->barrier) == PTHREAD_BARRIER_SERIAL_THREAD) {
        pthread_barrier_destroy(&gate->barrier);
        memset(gate, 0x5a, sizeof *gate);
        free(gate);
    }
    return NULL;
}

static void destroyed_at_once(void) { /* by the serial thread, while the others come out of their waits */
    for (int again = 0; again < 20; again++) {
        struct gate *gate = malloc(sizeof *gate);
        pthread_barrier_init(&gate->barrier, NULL, 4);
        for (int at = 0; at < 4; at++)
            pthread_create(&made[at], NULL, destroy_at_once, gate);
        join_all(made, 4);
    }
}

static volatile sig_atomic_t handled;

static void handle(int number) {
    handled = number;
}

static void own_handler(void) { /* a signal that the program handles itself */
    signal(SIGTERM, handle);
    begin(3, 2, 3, take_turns, made);
    join_all(made, 3);
    pthread_barrier_destroy(&pool.barrier);
    raise(SIGTERM);
    exit(handled == SIGTERM ? 7 : 1);
}

static void forks(void) { /* a child that ends by exit writes nothing into its parent's trace */
    begin(3, 9, 3, take_turns, made);
    join_all(made, 3);
    if (fork() == 0)
        exit(0);
    sleep(1);
}

static void late(void) { /* for the faulty barrier */
    begin(3, 6, 3, take_turns_late, made);
    join_all(made, 3);
    pthread_barrier_destroy(&pool.barrier);
}

static void late_and_ends(void) { /* the same, and the program ends while its threads go on */
    begin(3, -1, 3, take_turns_late, made);
    until(60);
}

static void late_and_hangs(void) { /* the same, and then main never ends */
    begin(3, 6, 3, take_turns_late, made);
    join_all(made, 3);
    pause();
}

int main(int count, char **words) {
    static const struct { const char *name; void (*call)(void); } calls[] = {
        {"joined", joined}, {"never_destroyed", never_destroyed}, {"still_turning", still_turning},
        {"still_waiting", still_waiting}, {"main_leaves", main_leaves}, {"hang", hang}, {"turning_for_ever", turning_for_ever},
        {"come_and_go", come_and_go}, {"two_pools", two_pools}, {"too_many", too_many}, {"full", full},
        {"many_parties", many_parties}, {"destroyed_at_once", destroyed_at_once}, {"own_handler", own_handler},
        {"forks", forks}, {"late", late}, {"late_and_ends", late_and_ends}, {"late_and_hangs", late_and_hangs}};
    for (size_t at = 0; count == 2 && at < sizeof calls / sizeof *calls; at++)
        if (strcmp(words[1], calls[at].name) == 0) {
            calls[at].call();
            return 0;
        }
    return 2;
}
