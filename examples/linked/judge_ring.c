/* A program that judges itself while it runs: judge_ring [PHASES]. Workers meet at a pthread barrier, and write what
 * they do into a ring of events. One more thread takes them out, and has the judge say of each whether it can be. */
#define _POSIX_C_SOURCE 200809L /* for pthread_barrier_t */
#include "paldwosk.h"
#include <inttypes.h>
#include <pthread.h>
#include <stdio.h>
#include <stdlib.h>

enum { WORKERS = 4, PLACES = 64, BARRIER = 0 };

static pthread_barrier_t barrier;
static long phases = 10000;

/* The ring, and its lock: the order in which it is taken is the order of the events. */
static pthread_mutex_t lock = PTHREAD_MUTEX_INITIALIZER;
static pthread_cond_t filled = PTHREAD_COND_INITIALIZER, emptied = PTHREAD_COND_INITIALIZER;
static paldwosk_judged_event ring[PLACES];
static uint64_t written, taken;
static int ended; /* no event is written any more */

static void write_event(paldwosk_judged_event event) {
  pthread_mutex_lock(&lock);
  while (written - taken == PLACES) pthread_cond_wait(&emptied, &lock);
  ring[written++ % PLACES] = event;
  pthread_cond_signal(&filled);
  pthread_mutex_unlock(&lock);
}

static void note(paldwosk_judged_kind kind, uint64_t task) {
  write_event((paldwosk_judged_event){.phaser = BARRIER, .task = task, .kind = kind});
}

/* Takes the next event. 0 if none comes any more. */
static int take_event(paldwosk_judged_event *event) {
  pthread_mutex_lock(&lock);
  while (written == taken && !ended) pthread_cond_wait(&filled, &lock);
  int is_there = written != taken;
  if (is_there) *event = ring[taken++ % PLACES];
  pthread_cond_signal(&emptied);
  pthread_mutex_unlock(&lock);
  return is_there;
}

static void must(paldwosk_answer answer, uint64_t event) {
  if (answer == PALDWOSK_DONE) return;
  fprintf(stderr, "event %" PRIu64 ": %s\n", event, paldwosk_answer_text(answer));
  exit(1);
}

static void *judge_all(void *unused) {
  paldwosk_judge judge = PALDWOSK_NO_JUDGE;
  paldwosk_judged_event event;
  paldwosk_judged_totals totals;
  must(paldwosk_judge_new(&judge), 0);
  for (uint64_t number = 1; take_event(&event); number++) must(paldwosk_judge_event(&judge, &event), number);
  must(paldwosk_judge_totals(&judge, &totals), 0);
  paldwosk_judge_free(&judge);
  printf("events %" PRIu64 "\nphasers made %" PRIu64 " there %" PRIu64 "\n", totals.events, totals.made, totals.there);
  printf("signals %" PRIu64 " passes %" PRIu64 "\n", totals.signals, totals.passes);
  return unused;
}

/* A signal and a drop are written before they are done, and a pass after it. So none comes before what it waited for. */
static void *work(void *given) {
  uint64_t me = (uint64_t)(uintptr_t)given;
  for (long phase = 0; phase < phases; phase++) {
    note(PALDWOSK_JUDGED_SIG, me);
    pthread_barrier_wait(&barrier);
    note(PALDWOSK_JUDGED_PASS, me);
  }
  note(PALDWOSK_JUDGED_DROP, me);
  return NULL;
}

int main(int count, char **words) {
  pthread_t judge, workers[WORKERS];
  if (count == 2) phases = strtol(words[1], NULL, 10);
  if (pthread_barrier_init(&barrier, NULL, WORKERS) || pthread_create(&judge, NULL, judge_all, NULL)) return 3;
  /* Worker 0 makes the phaser that stands for the barrier, and registers the others. */
  write_event((paldwosk_judged_event){.kind = PALDWOSK_JUDGED_MAKE, .mode = PALDWOSK_SIG_WAIT, .bound = 2});
  for (uint64_t child = 1; child < WORKERS; child++)
    write_event((paldwosk_judged_event){.kind = PALDWOSK_JUDGED_REG, .child = child, .mode = PALDWOSK_SIG_WAIT});
  for (uintptr_t at = 0; at < WORKERS; at++)
    if (pthread_create(&workers[at], NULL, work, (void *)at)) return 3;
  for (int at = 0; at < WORKERS; at++) pthread_join(workers[at], NULL);
  pthread_mutex_lock(&lock);
  ended = 1;
  pthread_cond_signal(&filled);
  pthread_mutex_unlock(&lock);
  pthread_join(judge, NULL);
  return pthread_barrier_destroy(&barrier) ? 3 : 0;
}
