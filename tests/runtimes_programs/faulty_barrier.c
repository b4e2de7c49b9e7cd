/* A barrier in the place of that of pthreads, with a planted fault: in its third turn it lets all go where one is still
   missing, and from then on nobody waits at it. */
#include <pthread.h>

struct faulty { unsigned parties, inside, turn, is_broken; };

static pthread_mutex_t lock = PTHREAD_MUTEX_INITIALIZER;
static pthread_cond_t changed = PTHREAD_COND_INITIALIZER;

int pthread_barrier_init(pthread_barrier_t *barrier, const pthread_barrierattr_t *how, unsigned parties) {
    struct faulty *own = (struct faulty *)barrier;
    (void)how;
    own->parties = parties, own->inside = own->turn = own->is_broken = 0;
    return 0;
}

int pthread_barrier_wait(pthread_barrier_t *barrier) {
    struct faulty *own = (struct faulty *)barrier;
    pthread_mutex_lock(&lock);
    unsigned turn = own->turn;
    if (++own->inside == own->parties - (turn == 2)) {
        own->is_broken |= turn == 2;
        own->inside = 0, own->turn++;
        pthread_cond_broadcast(&changed);
    }
    while (own->turn == turn && !own->is_broken)
        pthread_cond_wait(&changed, &lock);
    pthread_mutex_unlock(&lock);
    return 0;
}

int pthread_barrier_destroy(pthread_barrier_t *barrier) {
    (void)barrier;
    return 0;
}

/* The same for a team of three of OpenMP. */
void faulty_wait_of_three(void) {
    static struct { struct faulty own; pthread_barrier_t room; } three = {{3, 0, 0, 0}, {{0}}};
    pthread_barrier_wait((pthread_barrier_t *)&three);
}
