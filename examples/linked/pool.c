/* Threads that come and go. Each works for three phases, and after its first has two others come, up to a depth. Who
 * comes begins in the phase in which its parent is then. In each phase all who work say so, and the root counts. */
#include "paldwosk_barrier.h"
#include <inttypes.h>
#include <stdio.h>

enum { DEPTH = 3, TURNS = 3, CHILDREN = 2 };

typedef struct worker {
  paldwosk_task task;
  pthread_t thread;
  int depth;
  struct worker *children[CHILDREN];
} worker;

static void must(paldwosk_answer answer) {
  if (answer == PALDWOSK_DONE) return;
  fprintf(stderr, "%s\n", paldwosk_answer_text(answer));
  exit(1);
}

static void *work(void *given);

/* A new worker, in a thread of its own, that `parent` joined. The parent hasn't signalled its phase yet, so that phase
 * can't end without the child. */
static worker *start(const paldwosk_task *parent, int depth) {
  worker *child = (worker *)calloc(1, sizeof *child);
  if (!child) exit(1);
  child->depth = depth;
  must(paldwosk_barrier_join(parent, PALDWOSK_SIG_WAIT, &child->task));
  if (pthread_create(&child->thread, NULL, work, child)) exit(1);
  return child;
}

static void finish(worker *child) {
  if (!child) return;
  pthread_join(child->thread, NULL);
  free(child);
}

static void *work(void *given) {
  worker *me = (worker *)given;
  for (int turn = 0; turn < TURNS; turn++) {
    must(paldwosk_barrier_send(&me->task, 0, 1));
    must(paldwosk_barrier_next(&me->task, NULL));
    for (int at = 0; at < CHILDREN && turn == 0 && me->depth < DEPTH; at++)
      me->children[at] = start(&me->task, me->depth + 1);
  }
  must(paldwosk_barrier_leave(&me->task)); /* before it waits for its children: they needn't wait for it */
  for (int at = 0; at < CHILDREN; at++) finish(me->children[at]);
  return NULL;
}

int main(void) {
  const paldwosk_operator sum = PALDWOSK_SUM;
  paldwosk_barrier barrier = PALDWOSK_NO_BARRIER;
  paldwosk_task root = PALDWOSK_NO_TASK;
  int64_t working = 1, total = 0;
  must(paldwosk_barrier_new(&barrier, 2, &sum, 1));
  must(paldwosk_barrier_make(&barrier, PALDWOSK_SIG_WAIT, &root));
  worker *first = start(&root, 0);
  for (uint64_t phase = 0; working > 0; total += working) {
    must(paldwosk_barrier_next(&root, &phase));
    must(paldwosk_barrier_look(&root, 0, &working));
    printf("phase %" PRIu64 ": %" PRId64 "\n", phase, working);
  }
  must(paldwosk_barrier_leave(&root));
  finish(first);
  must(paldwosk_barrier_free(&barrier));
  printf("total %" PRId64 "\n", total);
  return 0;
}
