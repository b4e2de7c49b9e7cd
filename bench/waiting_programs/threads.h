/* Goes through the phases by threads of POSIX. */
#include "phases.h"

static void *begin(void *place) {
  go_through((int)((struct place *)place - places));
  return NULL;
}

static void go_through_by_threads(void) {
  pthread_t started[MOST_THREADS];
  for (int thread = 0; thread < threads; thread++)
    if (pthread_create(&started[thread], NULL, begin, &places[thread]) != 0) stop(3, "there is no thread");
  for (int thread = 0; thread < threads; thread++) pthread_join(started[thread], NULL);
}
