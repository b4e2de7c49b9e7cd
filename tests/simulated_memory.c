/* Threads on one thread, and a memory that gives stale values as C11's may. The file that calls it is compiled with
 * -fsanitize=thread, but linked without the compiler's library: so each access to memory comes to the functions at
 * the end of this file.
 *
 * THREADS are fibers. At each access to an atomic, at each lock and each yield another may go on, as the seed has it; now
 * and then at a plain access too. A fiber that has been left may stay so for long.
 *
 * ATOMICS. Of each the last stores are kept, in their order. A load may read any of them that isn't older than what its
 * fiber has seen: what it read or wrote there before, and what whoever released had seen that this fiber has acquired.
 * A load that is SEQ_CST reads nothing older than the last access that is SEQ_CST, but is no fence. A change reads the
 * newest, and what it releases holds what the store released that it replaces. A compare-exchange may fail by a stale
 * value, as a load. After some stale values in a row a load has the newest.
 *
 * PLAIN MEMORY has its newest value. Two accesses to a byte, one of which writes, have to be ordered by what was released
 * and acquired: else it is a race, and ends the episode. So an order that is too weak for plain memory is found, and
 * no value need be stale. What the archive does in its memory isn't seen, but that it is called, and which of its
 * atomics it changes or loads. A call is one step, and orders those who change and load the same.
 *
 * SLEEPING is by futex. The kernel may see a stale value of the word, but none that is older than what a thread had seen
 * that has looked for sleepers before. A sleeper goes on for no reason now and then.
 *
 * WHAT IT DOESN'T GIVE: a store that comes before another which was made earlier; a load of what is stored only later. */
#include "simulated_memory.h"

#include <errno.h>
#include <malloc.h>
#include <stdarg.h>
#include <stdio.h>
#include <stdlib.h>
#include <string.h>
#include <ucontext.h>

enum { CELLS = 512, KEPT = 8, STACK = 1 << 18, MOST_STALE = 6, MOST_STEPS = 100000, MOST_FREED = 64 };
enum { CELL_PLACES = 1024, SHADOW_PLACES = 1 << 14 };
enum { CONSUME = 1, ACQUIRE = 2, RELEASE = 3, BOTH = 4, IN_ONE_ORDER = 5 }; /* as the compiler numbers them */

/* What a fiber has seen, or what was released: of each atomic the oldest store that may be read; of each fiber how far it
 * was. */
struct seen {
  uint32_t oldest[CELLS], of[MOST_FIBERS];
};

struct store {
  uint64_t value;
  struct seen released;
};

/* An atomic. Its stores are numbered; the last ones are kept. */
struct cell {
  uintptr_t at;
  uint32_t size, first, newest;
  uint32_t in_one_order, at_futex; /* nothing older is read by a SEQ_CST load; or by who sleeps after a wake */
  int is_overwritten;              /* by a plain store: from that on its number is the first */
  uint32_t read_by[MOST_FIBERS], written_by[MOST_FIBERS], stale[MOST_FIBERS];
  struct store stores[KEPT];
};

/* Who has used the bytes of a word plainly. */
struct shadow {
  uintptr_t word;
  uint64_t episode;
  struct {
    uint32_t writer, written, read_by[MOST_FIBERS];
  } bytes[8];
};

struct fiber {
  ucontext_t context;
  void (*body)(int);
  int given, is_over;
  int (*is_so)(int); /* it waits for this, if it isn't NULL */
  int of;
  int wants_lock;
  uintptr_t word; /* it sleeps on this, if it isn't 0 */
  uint32_t bits;
  uint64_t held; /* it stays where it is until then, if another can go on */
  struct seen seen;
};

static struct fiber fibers[MOST_FIBERS];
static char stacks[MOST_FIBERS][STACK] __attribute__((aligned(64)));
static struct cell cells[CELLS];
static uint16_t cell_places[CELL_PLACES];
static struct shadow shadows[SHADOW_PLACES];
static struct seen by_lock, told, by_word[2];
static void *freed[MOST_FREED];
static uintptr_t hidden, hidden_end;
static uint64_t state, steps, episode;
static uint32_t switches, staleness; /* one access of so many has a switch; one load is stale */
static int fiber_count, cell_count, me, owner, freed_count, are_races_judged, ending;
static long processors;
static char *said;
static size_t said_room;
static ucontext_t outside;

/* ---- Chance, and the end */

static _Noreturn void die(int line) {
  fprintf(stderr, "simulated_memory.c: line %d\n", line);
  abort();
}

static uint32_t any(void) {
  state ^= state << 13, state ^= state >> 7, state ^= state << 17;
  return (uint32_t)(state * 0x9E3779B97F4A7C15u >> 32);
}

uint32_t any_below(uint32_t limit) { return limit ? any() % limit : 0; }

_Noreturn void end_episode(int how, const char *why, int64_t of, int64_t more) {
  snprintf(said, said_room, "%s: %lld %lld, fiber %d, after %llu steps", why, (long long)of, (long long)more, me,
           (unsigned long long)steps);
  ending = how;
  setcontext(&outside);
  die(__LINE__);
}

/* ---- Fibers */

static int can_go(const struct fiber *fiber) {
  if (fiber->is_over || fiber->word || (fiber->wants_lock && owner >= 0)) return 0;
  return !fiber->is_so || fiber->is_so(fiber->of);
}

/* Another that can go on, or this one; -1 if there is none. */
static int choose(int is_other) {
  int able[MOST_FIBERS], count = 0, chosen = -1;
  for (int is_held = 0; is_held < 2 && !count; is_held++)
    for (int at = 0; at < fiber_count; at++)
      if ((is_held || fibers[at].held <= steps) && !(is_other && at == me) && can_go(&fibers[at])) able[count++] = at;
  if (count) chosen = able[any_below((uint32_t)count)];
  else if (is_other && can_go(&fibers[me])) chosen = me;
  return chosen;
}

static void go_to(int chosen) {
  int left = me;
  if (chosen < 0) end_episode(HANG, "no fiber can go on", 0, 0);
  if (chosen == left) return;
  me = chosen;
  swapcontext(&fibers[left].context, &fibers[chosen].context);
}

/* Before an access. */
static void step(void) {
  if (++steps > MOST_STEPS) end_episode(HANG, "the fibers come to no end", 0, 0);
  if (any_below(switches)) return;
  if (!any_below(24)) fibers[me].held = steps + any_below(600);
  go_to(choose(0));
}

static void join_seen(struct seen *into, const struct seen *from) {
  for (int at = 0; at < cell_count; at++)
    if (into->oldest[at] < from->oldest[at]) into->oldest[at] = from->oldest[at];
  for (int at = 0; at < MOST_FIBERS; at++)
    if (into->of[at] < from->of[at]) into->of[at] = from->of[at];
}

/* What the fiber does from now on comes after what it releases. */
static void release_into(struct seen *into) {
  join_seen(into, &fibers[me].seen);
  fibers[me].seen.of[me]++;
}

void tell(void) { release_into(&told); }
void hear(void) { join_seen(&fibers[me].seen, &told); }

static void run_fiber(void) {
  fibers[me].body(fibers[me].given);
  tell();
  fibers[me].is_over = 1;
  if (me == 0) setcontext(&outside);
  go_to(choose(1));
}

static void make_fiber(int number, void (*body)(int), int given) {
  struct fiber *fiber = &fibers[number];
  fiber->body = body;
  fiber->given = given;
  getcontext(&fiber->context);
  fiber->context.uc_stack.ss_sp = stacks[number];
  fiber->context.uc_stack.ss_size = STACK;
  fiber->context.uc_link = NULL;
  makecontext(&fiber->context, run_fiber, 0);
}

int start_fiber(void (*body)(int), int given) {
  int number = fiber_count;
  if (number == MOST_FIBERS) die(__LINE__);
  make_fiber(number, body, given);
  release_into(&fibers[number].seen);
  fibers[number].seen.of[number] = 1;
  fiber_count++;
  step();
  return number;
}

void await(int (*is_so)(int), int given) {
  fibers[me].is_so = is_so;
  fibers[me].of = given;
  go_to(choose(0));
  fibers[me].is_so = NULL;
  hear();
}

int simulated_yield(void) {
  steps += 3;
  step();
  go_to(choose(1));
  return 0;
}

/* ---- Plain memory */

static struct shadow *shadow_of(uintptr_t word) {
  size_t at = (word >> 3) * 0x9E3779B97F4A7C15u >> 50;
  for (size_t tried = 0; tried < SHADOW_PLACES; tried++, at = (at + 1) % SHADOW_PLACES) {
    if (shadows[at].episode == episode && shadows[at].word == word) return &shadows[at];
    if (shadows[at].episode == episode) continue;
    memset(&shadows[at], 0, sizeof shadows[at]);
    shadows[at].episode = episode;
    shadows[at].word = word;
    return &shadows[at];
  }
  die(__LINE__);
}

static struct cell *cell_at(uintptr_t at) {
  size_t place = (at >> 2) * 0x9E3779B97F4A7C15u >> 54;
  for (; cell_places[place]; place = (place + 1) % CELL_PLACES)
    if (cells[cell_places[place] - 1].at == at) return &cells[cell_places[place] - 1];
  return NULL;
}

static void tell_race(const char *what, uintptr_t at, uintptr_t from) {
  if (are_races_judged) end_episode(RACE, what, (int64_t)at, (int64_t)from);
}

/* Whether one of these happened that this fiber hasn't seen. */
static int is_unseen(const uint32_t by[MOST_FIBERS]) {
  for (int at = 0; at < fiber_count; at++)
    if (by[at] > fibers[me].seen.of[at]) return 1;
  return 0;
}

/* Whether a plain use of the byte hasn't been seen: a store, or also a load. */
static int is_unordered(uintptr_t at, int is_write) {
  struct shadow *shadow = shadow_of(at & ~(uintptr_t)7);
  if (shadow->bytes[at & 7].written > fibers[me].seen.of[shadow->bytes[at & 7].writer]) return 1;
  return is_write && is_unseen(shadow->bytes[at & 7].read_by);
}

static void note_use(uintptr_t at, int is_write) {
  struct shadow *shadow = shadow_of(at & ~(uintptr_t)7);
  uint32_t now = fibers[me].seen.of[me];
  if (!is_write) shadow->bytes[at & 7].read_by[me] = now;
  else shadow->bytes[at & 7].writer = (uint32_t)me, shadow->bytes[at & 7].written = now;
}

static void use_plainly(const void *start, size_t size, int is_write, void *from) {
  uintptr_t first = (uintptr_t)start;
  if (!episode || (first >= hidden && first < hidden_end) || start == &errno) return;
  if (!any_below(8)) step();
  for (uintptr_t at = first; at < first + size; at++) {
    if (is_unordered(at, is_write)) tell_race("race", at, (uintptr_t)from);
    note_use(at, is_write);
    struct cell *cell = at % 4 ? NULL : cell_at(at);
    if (!cell) continue;
    if (is_unseen(cell->written_by) || (is_write && is_unseen(cell->read_by)))
      tell_race("race with an atomic", at, (uintptr_t)from);
    cell->is_overwritten |= is_write;
  }
}

void hide_memory(const void *start, size_t size) {
  hidden = (uintptr_t)start;
  hidden_end = hidden + size;
}

void write_hidden(uint32_t *place, uint32_t value) { *place = value; }
void use_all(const void *start, size_t size) { use_plainly(start, size, 1, __builtin_return_address(0)); }

void overwrite(void *start, size_t size) {
  use_plainly(start, size, 1, __builtin_return_address(0));
  memset(start, 0x55, size);
}

/* Nobody gets it again before the episode is over. */
void simulated_free(void *memory) {
  if (!memory) return;
  use_plainly(memory, malloc_usable_size(memory), 1, __builtin_return_address(0));
  if (freed_count == MOST_FREED) die(__LINE__);
  freed[freed_count++] = memory;
}

/* ---- Atomics */

static uint64_t read_memory(uintptr_t at, uint32_t size) {
  uint64_t value = 0;
  memcpy(&value, (const void *)at, size);
  return value;
}

static void begin_stores(struct cell *cell) {
  cell->newest++;
  cell->first = cell->newest;
  cell->is_overwritten = 0;
  struct store *store = &cell->stores[cell->newest % KEPT];
  memset(&store->released, 0, sizeof store->released);
  store->value = read_memory(cell->at, cell->size);
}

static struct cell *cell_of(const volatile void *place, uint32_t size) {
  struct cell *cell = cell_at((uintptr_t)place);
  if (!cell) {
    size_t at = ((uintptr_t)place >> 2) * 0x9E3779B97F4A7C15u >> 54;
    while (cell_places[at]) at = (at + 1) % CELL_PLACES;
    if (cell_count == CELLS) die(__LINE__);
    cell = &cells[cell_count++];
    cell_places[at] = (uint16_t)cell_count;
    memset(cell, 0, offsetof(struct cell, stores));
    cell->at = (uintptr_t)place;
    cell->size = size;
    cell->is_overwritten = 1;
  }
  if (cell->is_overwritten) begin_stores(cell);
  return cell;
}

/* Before an atomic access: a plain one has to be ordered with it. */
static struct cell *use_atomic(const volatile void *place, uint32_t size, int is_read, int is_write, void *from) {
  step();
  struct cell *cell = cell_of(place, size);
  for (uintptr_t at = cell->at; at < cell->at + size; at++)
    if (is_unordered(at, is_write)) tell_race("race of an atomic", at, (uintptr_t)from);
  if (is_read) cell->read_by[me] = fibers[me].seen.of[me];
  if (is_write) cell->written_by[me] = fibers[me].seen.of[me];
  return cell;
}

static int is_acquired(int order) { return order == CONSUME || order == ACQUIRE || order >= BOTH; }
static int is_released(int order) { return order == RELEASE || order >= BOTH; }

/* The number of a store that the fiber may read, if nothing older than this one. */
static uint32_t choose_store(struct cell *cell, uint32_t oldest) {
  uint32_t seen = fibers[me].seen.oldest[cell - cells];
  if (oldest < seen) oldest = seen;
  if (oldest < cell->first) oldest = cell->first;
  if (cell->newest >= KEPT && oldest < cell->newest - KEPT + 1) oldest = cell->newest - KEPT + 1;
  int is_stale = oldest < cell->newest && cell->stale[me] < MOST_STALE && !any_below(staleness);
  uint32_t chosen = is_stale ? oldest + any_below(cell->newest - oldest) : cell->newest;
  cell->stale[me] = is_stale ? cell->stale[me] + 1 : 0;
  return chosen;
}

static uint64_t read_store(struct cell *cell, uint32_t number, int order) {
  struct seen *seen = &fibers[me].seen;
  if (seen->oldest[cell - cells] < number) seen->oldest[cell - cells] = number;
  if (is_acquired(order)) join_seen(seen, &cell->stores[number % KEPT].released);
  if (order == IN_ONE_ORDER && cell->in_one_order < number) cell->in_one_order = number;
  return cell->stores[number % KEPT].value;
}

/* A store; with a change what the store released that it replaces stays so. */
static void write_store(struct cell *cell, uint64_t value, int order, int is_change) {
  struct seen before = cell->stores[cell->newest % KEPT].released;
  struct store *store = &cell->stores[++cell->newest % KEPT];
  uint32_t number = cell->newest;
  store->value = value;
  if (is_change) store->released = before;
  else memset(&store->released, 0, sizeof store->released);
  fibers[me].seen.oldest[cell - cells] = store->released.oldest[cell - cells] = number;
  if (is_released(order)) release_into(&store->released);
  if (order == IN_ONE_ORDER) cell->in_one_order = number;
  memcpy((void *)cell->at, &value, cell->size);
}

static uint64_t load(const volatile void *place, uint32_t size, int order, void *from) {
  struct cell *cell = use_atomic(place, size, 1, 0, from);
  return read_store(cell, choose_store(cell, order == IN_ONE_ORDER ? cell->in_one_order : 0), order);
}

static void store(volatile void *place, uint64_t value, uint32_t size, int order, void *from) {
  write_store(use_atomic(place, size, 0, 1, from), value, order, 0);
}

enum { EXCHANGE, ADD, SUBTRACT, AND, OR };

static uint64_t change(volatile void *place, int how, uint64_t by, uint32_t size, int order, void *from) {
  struct cell *cell = use_atomic(place, size, 1, 1, from);
  uint64_t was = read_store(cell, cell->newest, order);
  uint64_t is[] = {by, was + by, was - by, was & by, was | by};
  write_store(cell, size == 8 ? is[how] : is[how] & ((UINT64_C(1) << 8 * size) - 1), order, 1);
  return was;
}

static int compare_exchange(volatile void *place, uint64_t *expected, uint64_t value, uint32_t size, int order,
                            int if_not, void *from) {
  struct cell *cell = use_atomic(place, size, 1, 0, from);
  uint32_t number = choose_store(cell, if_not == IN_ONE_ORDER ? cell->in_one_order : 0);
  if (cell->stores[number % KEPT].value == *expected) number = cell->newest;
  int is_done = cell->stores[number % KEPT].value == *expected;
  *expected = read_store(cell, number, is_done ? order : if_not);
  if (!is_done) return 0;
  for (uintptr_t at = cell->at; at < cell->at + size; at++)
    if (is_unordered(at, 1)) tell_race("race of an atomic", at, (uintptr_t)from);
  cell->written_by[me] = fibers[me].seen.of[me];
  write_store(cell, value, order, 1);
  return 1;
}

void begin_step(void) { step(); }
void load_word(int word) { join_seen(&fibers[me].seen, &by_word[word]); }

void change_word(int word) {
  load_word(word);
  release_into(&by_word[word]);
}

/* ---- The lock, and sleeping. There is one lock. */

int simulated_init(pthread_mutex_t *lock) {
  (void)lock;
  owner = -1;
  return 0;
}

int simulated_trylock(pthread_mutex_t *lock) {
  (void)lock;
  step();
  if (owner >= 0) {
    if (!any_below(4)) simulated_yield();
    return EBUSY;
  }
  owner = me;
  join_seen(&fibers[me].seen, &by_lock);
  return 0;
}

int simulated_lock(pthread_mutex_t *lock) {
  while (simulated_trylock(lock)) {
    fibers[me].wants_lock = 1;
    go_to(choose(0));
    fibers[me].wants_lock = 0;
  }
  return 0;
}

int simulated_unlock(pthread_mutex_t *lock) {
  (void)lock;
  step();
  if (owner != me) end_episode(WRONG_ANSWER, "another's lock is given back", owner, me);
  release_into(&by_lock);
  owner = -1;
  return 0;
}

/* Both take the kernel's lock: so who sleeps reads nothing older than what a thread had seen that woke before. */
static long fall_asleep(uintptr_t word, uint32_t value, uint32_t bits) {
  struct cell *cell = cell_at(word);
  uint32_t number = cell ? choose_store(cell, cell->at_futex) : 0;
  if ((uint32_t)(cell ? cell->stores[number % KEPT].value : read_memory(word, 4)) != value || !any_below(20)) return -1;
  fibers[me].word = word;
  fibers[me].bits = bits;
  go_to(choose(0));
  return 0;
}

static long wake(uintptr_t word, uint32_t bits) {
  struct cell *cell = cell_at(word);
  uint32_t seen = cell ? fibers[me].seen.oldest[cell - cells] : 0;
  long woken = 0;
  if (cell && cell->at_futex < seen) cell->at_futex = seen;
  for (int at = 0; at < fiber_count; at++) {
    if (fibers[at].word != word || !(fibers[at].bits & bits)) continue;
    fibers[at].word = 0;
    woken++;
  }
  return woken;
}

long simulated_syscall(long number, ...) {
  enum { WAIT_BITSET = 9, WAKE_BITSET = 10, IS_PRIVATE = 128 };
  va_list given;
  va_start(given, number);
  uintptr_t word = (uintptr_t)va_arg(given, void *);
  int operation = va_arg(given, int);
  uint32_t value = va_arg(given, uint32_t);
  const void *until = va_arg(given, const void *), *none = va_arg(given, const void *);
  uint32_t bits = va_arg(given, uint32_t);
  va_end(given);
  step();
  if (!until && !none && operation == (WAIT_BITSET | IS_PRIVATE)) return fall_asleep(word, value, bits);
  if (operation == (WAKE_BITSET | IS_PRIVATE)) return wake(word, bits);
  die(__LINE__);
}

int simulated_time(struct timespec *now) {
  now->tv_sec = (time_t)(steps / 1000000);
  now->tv_nsec = (long)(steps % 1000000 * 1000);
  return 1;
}

long simulated_processors(void) { return processors; }

/* ---- Episodes */

int run_episode(uint64_t seed, void (*body)(int), int are_judged, char *room, size_t size) {
  static const uint32_t of_switches[] = {2, 3, 6, 12, 40}, of_staleness[] = {1, 2, 4};
  state = (seed + 1) * 0xD1B54A32D192ED03u;
  for (int at = 0; at < 8; at++) any();
  switches = of_switches[any_below(5)];
  staleness = of_staleness[any_below(3)];
  processors = any_below(2) ? 64 : 1;
  episode = seed + 1;
  steps = 0;
  memset(fibers, 0, sizeof fibers);
  memset(cell_places, 0, sizeof cell_places);
  memset(&by_lock, 0, sizeof by_lock);
  memset(&told, 0, sizeof told);
  memset(by_word, 0, sizeof by_word);
  cell_count = me = ending = 0;
  owner = -1;
  fiber_count = 1;
  are_races_judged = are_judged;
  said = room;
  said_room = size;
  fibers[0].seen.of[0] = 1;
  make_fiber(0, body, 0);
  volatile int is_back = 0;
  getcontext(&outside);
  if (!is_back) {
    is_back = 1;
    setcontext(&fibers[0].context);
  }
  while (freed_count) free(freed[--freed_count]);
  episode = 0;
  return ending;
}

/* ---- What the compiler calls */

#define FROM __builtin_return_address(0)
#define PLAIN(size)                                                                             \
  void __tsan_read##size(void *at);                                                             \
  void __tsan_write##size(void *at);                                                            \
  void __tsan_unaligned_read##size(void *at);                                                   \
  void __tsan_unaligned_write##size(void *at);                                                  \
  void __tsan_read##size(void *at) { use_plainly(at, size, 0, FROM); }                          \
  void __tsan_write##size(void *at) { use_plainly(at, size, 1, FROM); }                         \
  void __tsan_unaligned_read##size(void *at) { use_plainly(at, size, 0, FROM); }                \
  void __tsan_unaligned_write##size(void *at) { use_plainly(at, size, 1, FROM); }
PLAIN(1)
PLAIN(2)
PLAIN(4)
PLAIN(8)
PLAIN(16)

void __tsan_init(void);
void __tsan_acquire(void *at);
void __tsan_release(void *at);
void AnnotateIgnoreReadsBegin(const char *file, int line);
void AnnotateIgnoreReadsEnd(const char *file, int line);
void AnnotateIgnoreWritesBegin(const char *file, int line);
void AnnotateIgnoreWritesEnd(const char *file, int line);
void __tsan_acquire(void *at) { (void)at; } /* what the header tells the sanitizer orders nothing here */
void __tsan_release(void *at) { (void)at; }
void AnnotateIgnoreReadsBegin(const char *file, int line) { (void)file, (void)line; }
void AnnotateIgnoreReadsEnd(const char *file, int line) { (void)file, (void)line; }
void AnnotateIgnoreWritesBegin(const char *file, int line) { (void)file, (void)line; }
void AnnotateIgnoreWritesEnd(const char *file, int line) { (void)file, (void)line; }
void __tsan_func_entry(void *from);
void __tsan_func_exit(void);
void __tsan_read_range(void *at, size_t size);
void __tsan_write_range(void *at, size_t size);
void __tsan_init(void) {}
void __tsan_func_entry(void *from) { (void)from; }
void __tsan_func_exit(void) {}
void __tsan_read_range(void *at, size_t size) { use_plainly(at, size, 0, FROM); }
void __tsan_write_range(void *at, size_t size) { use_plainly(at, size, 1, FROM); }

#define CHANGE(name, how, bits)                                                                 \
  uint##bits##_t __tsan_atomic##bits##_##name(volatile void *at, uint##bits##_t by, int order); \
  uint##bits##_t __tsan_atomic##bits##_##name(volatile void *at, uint##bits##_t by, int order) { \
    return (uint##bits##_t)change(at, how, by, bits / 8, order, FROM);                          \
  }
#define ATOMIC(bits)                                                                            \
  uint##bits##_t __tsan_atomic##bits##_load(const volatile void *at, int order);                \
  void __tsan_atomic##bits##_store(volatile void *at, uint##bits##_t value, int order);         \
  int __tsan_atomic##bits##_compare_exchange_strong(volatile void *at, void *expected, uint##bits##_t value, int order, \
                                                    int if_not);                                \
  uint##bits##_t __tsan_atomic##bits##_load(const volatile void *at, int order) {               \
    return (uint##bits##_t)load(at, bits / 8, order, FROM);                                     \
  }                                                                                             \
  void __tsan_atomic##bits##_store(volatile void *at, uint##bits##_t value, int order) {        \
    store(at, value, bits / 8, order, FROM);                                                    \
  }                                                                                             \
  int __tsan_atomic##bits##_compare_exchange_strong(volatile void *at, void *expected, uint##bits##_t value, int order, \
                                                    int if_not) {                               \
    uint64_t was = read_memory((uintptr_t)expected, bits / 8);                                  \
    int is_done = compare_exchange(at, &was, value, bits / 8, order, if_not, FROM);             \
    memcpy(expected, &was, bits / 8);                                                           \
    return is_done;                                                                             \
  }                                                                                             \
  CHANGE(exchange, EXCHANGE, bits)                                                              \
  CHANGE(fetch_add, ADD, bits)                                                                  \
  CHANGE(fetch_sub, SUBTRACT, bits)                                                             \
  CHANGE(fetch_and, AND, bits)                                                                  \
  CHANGE(fetch_or, OR, bits)
ATOMIC(32)
ATOMIC(64)
