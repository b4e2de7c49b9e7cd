/* A queue of one producer and two consumers, of whom each takes all items. It has no lock but the barrier's: the bound
 * holds back the producer, which only signals, until both consumers, who only wait, have come after it. */
#include "paldwosk_barrier.h"
#include <inttypes.h>
#include <stdio.h>

/* When the producer writes item n it has signalled item n - 1, so each consumer has ended its wait for item
 * n - 1 - BOUND, and may be reading that. The slots of all from there to n are apart. */
enum { BOUND = 6, SLOTS = BOUND + 2, ITEMS = 1000, CONSUMERS = 2 };

static int32_t slots[SLOTS];
static int64_t sums[CONSUMERS];
static paldwosk_task producer, consumers[CONSUMERS];

static void must(paldwosk_answer answer) {
  if (answer == PALDWOSK_DONE) return;
  fprintf(stderr, "%s\n", paldwosk_answer_text(answer));
  exit(1);
}

static void *produce(void *unused) {
  for (int32_t item = 0; item < ITEMS; item++) {
    slots[item % SLOTS] = item * item;
    must(paldwosk_barrier_signal(&producer));     /* it is there: this waits where the queue is full */
    must(paldwosk_barrier_wait(&producer, NULL)); /* who only signals waits for nobody: on to the next item */
  }
  must(paldwosk_barrier_leave(&producer));
  return unused;
}

static void *consume(void *given) {
  const paldwosk_task *task = (const paldwosk_task *)given;
  for (int32_t item = 0; item < ITEMS; item++) {
    must(paldwosk_barrier_wait(task, NULL));
    sums[task - consumers] += slots[item % SLOTS];
  }
  must(paldwosk_barrier_leave(task));
  return NULL;
}

int main(void) {
  paldwosk_barrier barrier = PALDWOSK_NO_BARRIER;
  paldwosk_task root = PALDWOSK_NO_TASK;
  pthread_t threads[1 + CONSUMERS];
  must(paldwosk_barrier_new(&barrier, BOUND, NULL, 0));
  must(paldwosk_barrier_make(&barrier, PALDWOSK_SIG_WAIT, &root)); /* only who does both has children of both kinds */
  must(paldwosk_barrier_join(&root, PALDWOSK_SIG, &producer));
  for (int at = 0; at < CONSUMERS; at++) must(paldwosk_barrier_join(&root, PALDWOSK_WAIT, &consumers[at]));
  must(paldwosk_barrier_leave(&root));
  if (pthread_create(&threads[0], NULL, produce, NULL)) return 1;
  for (int at = 0; at < CONSUMERS; at++)
    if (pthread_create(&threads[1 + at], NULL, consume, &consumers[at])) return 1;
  for (int at = 0; at < 1 + CONSUMERS; at++) pthread_join(threads[at], NULL);
  must(paldwosk_barrier_free(&barrier));
  for (int at = 0; at < CONSUMERS; at++) printf("consumer %d took %d items: %" PRId64 "\n", at, ITEMS, sums[at]);
  return 0;
}
