/* The preload by which tests/refuse_memory and tests/given_up refuse the program its memory.
 *
 * It counts malloc, calloc, realloc, posix_memalign, aligned_alloc, memalign and pthread_create, which
 * takes a thread's stack, of all threads, and only from main on: what the loader and the C library take
 * before it, and what is taken after main has returned, is given. To know when main begins it stands in
 * for __libc_start_main. REFUSE_AT=N refuses the Nth alone, REFUSE_FROM=N each from the Nth on. REFUSE_LARGE=S
 * refuses each from the first on that is of S bytes or more and comes after a thread was started. At the end of
 * the process the count is written to the file COUNTED. */
#define _GNU_SOURCE
#include <dlfcn.h>
#include <errno.h>
#include <fcntl.h>
#include <pthread.h>
#include <stdatomic.h>
#include <stddef.h>
#include <stdio.h>
#include <stdlib.h>
#include <sys/syscall.h>
#include <unistd.h>

extern void *__libc_malloc(size_t), *__libc_calloc(size_t, size_t), *__libc_realloc(void *, size_t);
extern void *__libc_memalign(size_t, size_t);

typedef int main_function(int, char **, char **);
typedef void hook(void);
typedef void *work(void *);
typedef int create_function(pthread_t *, const pthread_attr_t *, work *, void *);
typedef int start_function(main_function *, int, char **, hook *, hook *, hook *, void *);

static atomic_int is_counting, has_threads, has_refused;
static atomic_ulong count;
static unsigned long refused_at, refused_from, refused_large;
static const char *counted;
static main_function *own_main;

/* Whether one of so many bytes is too large, or comes after one that was. */
static int is_too_large(size_t size) {
  if (refused_large && size >= refused_large && atomic_load(&has_threads)) atomic_store(&has_refused, 1);
  return atomic_load(&has_refused);
}

static int is_refused(size_t size) {
  if (!atomic_load(&is_counting)) return 0;
  unsigned long number = atomic_fetch_add(&count, 1) + 1;
  int is_one = number == refused_at || (refused_from && number >= refused_from) || is_too_large(size);
  if (is_one) errno = ENOMEM;
  return is_one;
}

void *malloc(size_t size) { return is_refused(size) ? NULL : __libc_malloc(size); }
void *calloc(size_t items, size_t size) { return is_refused(items * size) ? NULL : __libc_calloc(items, size); }
void *realloc(void *old, size_t size) { return is_refused(size) ? NULL : __libc_realloc(old, size); }
void *memalign(size_t boundary, size_t size) { return is_refused(size) ? NULL : __libc_memalign(boundary, size); }
void *aligned_alloc(size_t boundary, size_t size) { return memalign(boundary, size); }

int posix_memalign(void **to, size_t boundary, size_t size) {
  void *made = memalign(boundary, size);
  if (!made) return ENOMEM;
  *to = made;
  return 0;
}

int pthread_create(pthread_t *thread, const pthread_attr_t *attributes, work *start, void *argument) {
  create_function *create = (create_function *)dlsym(RTLD_NEXT, "pthread_create");
  if (is_refused(0)) return EAGAIN;
  atomic_store(&has_threads, 1);
  return create(thread, attributes, start, argument);
}

static unsigned long number_of(const char *name) {
  const char *text = getenv(name);
  return text ? strtoul(text, NULL, 10) : 0;
}

static int counting_main(int words, char **word, char **environment) {
  refused_at = number_of("REFUSE_AT");
  refused_from = number_of("REFUSE_FROM");
  refused_large = number_of("REFUSE_LARGE");
  counted = getenv("COUNTED");
  atomic_store(&is_counting, 1);
  int status = own_main(words, word, environment);
  atomic_store(&is_counting, 0);
  return status;
}

int __libc_start_main(main_function *its_main, int words, char **word, hook *init, hook *fini,
                      hook *loader_fini, void *stack_end) {
  start_function *start = (start_function *)dlsym(RTLD_NEXT, "__libc_start_main");
  own_main = its_main;
  return start(counting_main, words, word, init, fini, loader_fini, stack_end);
}

static void write_count(void) {
  char text[32];
  atomic_store(&is_counting, 0);
  int file = counted ? open(counted, O_WRONLY | O_CREAT | O_TRUNC, 0600) : -1;
  if (file < 0) return;
  int length = snprintf(text, sizeof text, "%lu\n", atomic_load(&count));
  if (write(file, text, length) != length) abort();
  close(file);
}

__attribute__((destructor)) static void at_end(void) { write_count(); }

/* The program ends by this, without destructors. */
void _exit(int status) {
  write_count();
  syscall(SYS_exit_group, status);
  abort();
}
