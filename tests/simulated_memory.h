/* Simulated threads and memory: what tests/simulated.c asks of tests/simulated_memory.c, whose head says what they are
 * like. */
#ifndef SIMULATED_MEMORY_H
#define SIMULATED_MEMORY_H

#include <pthread.h>
#include <stddef.h>
#include <stdint.h>
#include <time.h>

enum { MOST_FIBERS = 8 }; /* the first of them runs the episode */

/* How an episode ends. */
enum { FINE, EARLY, WRONG_FOLD, HANG, RACE, WRONG_ANSWER, CRASH, ENDS };

/* Runs an episode with this seed: how it ends. What is said of it is in the room. Races are judged or not. */
int run_episode(uint64_t seed, void (*body)(int), int are_races_judged, char *said, size_t room);

/* ---- What a fiber calls */

uint32_t any_below(uint32_t limit);
_Noreturn void end_episode(int how, const char *why, int64_t of, int64_t more);
int start_fiber(void (*body)(int given), int given); /* with all that its maker has seen; its number */
void tell(void);                                     /* what it has seen, to all that hear from then on */
void hear(void);                                     /* that, and what fibers have seen that ended */
void await(int (*is_so)(int given), int given);      /* until it is so; then it hears */
void hide_memory(const void *start, size_t size);    /* the test's own, which isn't looked at */
void write_hidden(uint32_t *place, uint32_t value);
void use_all(const void *start, size_t size); /* as if it were written */
void overwrite(void *start, size_t size);
void begin_step(void);      /* another fiber may go on before it, and none in the midst of it */
void change_word(int word); /* an atomic of the archive's: 0 or 1 */
void load_word(int word);

/* ---- What the header calls in place of the system's */

int simulated_init(pthread_mutex_t *lock);
int simulated_lock(pthread_mutex_t *lock);
int simulated_trylock(pthread_mutex_t *lock);
int simulated_unlock(pthread_mutex_t *lock);
long simulated_syscall(long number, ...); /* a futex */
int simulated_yield(void);
int simulated_time(struct timespec *now);
void simulated_free(void *memory);
long simulated_processors(void);

#endif
