/* The preload by which tests/failing_streams has one read or one write of the program fail.
 *
 * It counts reads, and writes to all but standard error, of all threads and from main on; to know when main begins it
 * stands in for __libc_start_main. A read gives at most PIECE bytes, and a write takes at most so many, so that a short
 * text takes many of them. FAIL_READ=N has the Nth read fail by EIO, FAIL_WRITE=N the Nth write, and that one alone: what
 * the program does after it would go well. FAIL_WRITES_FROM=N has each write fail from the Nth on. At the end of the process
 * both counts are written to the file COUNTED. */
#define _GNU_SOURCE
#include <dlfcn.h>
#include <errno.h>
#include <fcntl.h>
#include <stdatomic.h>
#include <stddef.h>
#include <stdio.h>
#include <stdlib.h>
#include <sys/syscall.h>
#include <sys/uio.h>
#include <unistd.h>

typedef int main_function(int, char **, char **);
typedef void hook(void);
typedef int start_function(main_function *, int, char **, hook *, hook *, hook *, void *);

struct turns {
  atomic_ulong made;
  unsigned long fails_at, fails_from;
};

static atomic_int is_counting;
static struct turns reads, writes;
static size_t most;
static const char *counted;
static main_function *own_main;

static int fails(struct turns *turns) {
  unsigned long number = atomic_fetch_add(&turns->made, 1) + 1;
  if (number != turns->fails_at && (!turns->fails_from || number < turns->fails_from)) return 0;
  errno = EIO;
  return 1;
}

static size_t piece(size_t size) { return atomic_load(&is_counting) && size > most ? most : size; }

ssize_t read(int file, void *to, size_t size) {
  if (atomic_load(&is_counting) && fails(&reads)) return -1;
  return syscall(SYS_read, file, to, piece(size));
}

ssize_t write(int file, const void *from, size_t size) {
  if (file == STDERR_FILENO) return syscall(SYS_write, file, from, size);
  if (atomic_load(&is_counting) && fails(&writes)) return -1;
  return syscall(SYS_write, file, from, piece(size));
}

/* Of several parts the first that isn't empty is taken: as short as a write may be. */
ssize_t writev(int file, const struct iovec *parts, int count) {
  int at = 0;
  while (at + 1 < count && !parts[at].iov_len) at++;
  return count ? write(file, parts[at].iov_base, parts[at].iov_len) : 0;
}

static unsigned long number_of(const char *name) {
  const char *text = getenv(name);
  return text ? strtoul(text, NULL, 10) : 0;
}

static int counting_main(int words, char **word, char **environment) {
  reads.fails_at = number_of("FAIL_READ");
  writes.fails_at = number_of("FAIL_WRITE");
  writes.fails_from = number_of("FAIL_WRITES_FROM");
  most = number_of("PIECE");
  counted = getenv("COUNTED");
  atomic_store(&is_counting, 1);
  int status = own_main(words, word, environment);
  atomic_store(&is_counting, 0);
  return status;
}

int __libc_start_main(main_function *its_main, int words, char **word, hook *init, hook *fini,
                      hook *loader_fini, void *stack_end) {
  start_function *start = (start_function *)dlsym(RTLD_NEXT, "__libc_start_main");
  own_main = its_main;
  return start(counting_main, words, word, init, fini, loader_fini, stack_end);
}

static void write_counts(void) {
  char text[64];
  atomic_store(&is_counting, 0);
  int file = counted ? open(counted, O_WRONLY | O_CREAT | O_TRUNC, 0600) : -1;
  if (file < 0) return;
  int length = snprintf(text, sizeof text, "%lu %lu\n", atomic_load(&reads.made), atomic_load(&writes.made));
  if (write(file, text, length) != length) abort();
  close(file);
}

__attribute__((destructor)) static void at_end(void) { write_counts(); }

/* The program ends by this, without destructors. */
void _exit(int status) {
  write_counts();
  syscall(SYS_exit_group, status);
  abort();
}
