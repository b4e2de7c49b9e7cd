/* What the programs in C share. THREADS threads go through phases together and do nothing else, batch after batch of
 * PHASES phases; one batch warms up, and then BATCHES count. Thread 0 takes the time. Printed are the best and the
 * median batch, in microseconds on the clock for a phase. Status 1: a phase didn't come in order; 2: the words are
 * wrong; 3: there is no thread, or no memory. */
#include <inttypes.h>
#include <pthread.h>
#include <stdio.h>
#include <stdlib.h>
#include <time.h>

enum { MOST_THREADS = 256, MOST_BATCHES = 1000, LOOK_EVERY = 16 };

/* How many phases a thread has signalled. It has a line of its own, so that it costs nothing while nobody looks. */
static struct place {
  _Alignas(128) uint64_t signalled;
} places[MOST_THREADS];

_Alignas(128) static int threads, phases, batches; /* apart from the barrier that is measured */
static pthread_barrier_t gate;                     /* between batches, outside what is timed */
static double took[MOST_BATCHES + 1];

/* Ends the thread's phase of this number at the barrier that is measured. Whether it was answered as it must be. */
static int meet(int thread, uint64_t phase);

static void stop(int status, const char *why) {
  fprintf(stderr, "%s\n", why);
  exit(status);
}

static double now(void) {
  struct timespec at;
  clock_gettime(CLOCK_MONOTONIC, &at);
  return (double)at.tv_sec * 1e6 + (double)at.tv_nsec / 1e3;
}

/* After the phase the neighbour has signalled it, and at most the next. */
static void look(int thread, uint64_t phase) {
  uint64_t signalled = __atomic_load_n(&places[(thread + 1) % threads].signalled, __ATOMIC_RELAXED);
  if (signalled != phase + 1 && signalled != phase + 2) stop(1, "a thread went on before another had come");
}

static void end_phase(int thread, uint64_t phase, int is_to_look) {
  __atomic_store_n(&places[thread].signalled, phase + 1, __ATOMIC_RELAXED);
  if (!meet(thread, phase)) stop(1, "a phase was answered as another, or not at all");
  if (is_to_look) look(thread, phase);
}

/* What each thread does. Where it is timed it looks seldom, since that takes a line from another processor. */
static void go_through(int thread) {
  uint64_t phase = 0;
  for (int batch = 0; batch <= batches; batch++) {
    pthread_barrier_wait(&gate);
    double begun = now();
    for (int gone = 0; gone < phases; gone++, phase++) end_phase(thread, phase, batch == 0 || phase % LOOK_EVERY == 0);
    if (thread == 0) took[batch] = now() - begun;
  }
}

static int number(const char *word, int most) {
  int said = atoi(word);
  if (said < 1 || said > most) stop(2, "a number isn't one of those that may be");
  return said;
}

static void read_words(int count, char **words) {
  if (count != 4) stop(2, "usage: THREADS PHASES BATCHES");
  threads = number(words[1], MOST_THREADS);
  phases = number(words[2], INT32_MAX);
  batches = number(words[3], MOST_BATCHES);
  if (pthread_barrier_init(&gate, NULL, (unsigned)threads) != 0) stop(3, "there is no memory for the gate");
}

static int is_longer(const void *first, const void *second) {
  double difference = *(const double *)first - *(const double *)second;
  return (difference > 0) - (difference < 0);
}

static void print_times(void) {
  double *counting = took + 1;
  qsort(counting, (size_t)batches, sizeof *counting, is_longer);
  printf("%.4f %.4f\n", counting[0] / phases, counting[batches / 2] / phases);
}
