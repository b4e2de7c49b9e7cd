/* The preload by which tests/workers counts the threads that a program makes. Where the program ends the count is written
 * to the file COUNTED. */
#define _GNU_SOURCE
#include <dlfcn.h>
#include <pthread.h>
#include <stdatomic.h>
#include <stdio.h>
#include <stdlib.h>
#include <sys/syscall.h>
#include <unistd.h>

typedef void *work(void *);
typedef int create_function(pthread_t *, const pthread_attr_t *, work *, void *);

static atomic_uint made;

int pthread_create(pthread_t *thread, const pthread_attr_t *attributes, work *start, void *argument) {
  create_function *create = (create_function *)dlsym(RTLD_NEXT, "pthread_create");
  int answer = create(thread, attributes, start, argument);
  if (answer == 0) atomic_fetch_add(&made, 1);
  return answer;
}

/* The program ends by this, without destructors. */
void _exit(int status) {
  const char *name = getenv("COUNTED");
  FILE *file = name ? fopen(name, "w") : NULL;
  if (file) {
    fprintf(file, "%u\n", atomic_load(&made));
    fclose(file);
  }
  syscall(SYS_exit_group, status);
  abort();
}
