/* Counts what a program asks the system for, memory and threads, refuses some of it, and gives and takes a byte a call.
 * For tools/refusals.py and tools/failing_streams.py, which preload it:
 *
 *   REFUSED=memory|threads  FIRST=N  LAST=N   refuses the requests of that kind with these numbers, from 1 on
 *   TALLY=FILE                                writes there, at each request and each write to standard output, how many
 *                                             bytes were written before, and the requests for memory and for threads
 *   NARROW=1                                  reads and writes at most one byte a call
 *   READ_ROOM=N  WRITE_ROOM=N  SAY_ROOM=N     fails each read of standard input once N bytes were read, and each
 *                                             write to standard output, or to standard error, once N bytes were taken
 *   INTERRUPTED=1                             those that fail are interrupted, in place of an error of the device
 */
#define _GNU_SOURCE
#include <dlfcn.h>
#include <errno.h>
#include <fcntl.h>
#include <pthread.h>
#include <stdio.h>
#include <stdlib.h>
#include <string.h>
#include <sys/syscall.h>
#include <unistd.h>

static long seen_memory, seen_threads, written;
/* How many bytes each descriptor of the first three still lets through. -1: all. */
static long rooms[] = {-1, -1, -1};
static int fault = EIO;
static long first_memory, last_memory, first_threads, last_threads;
static int tally = -1;
static size_t most = (size_t)-1;

static void *(*next_malloc)(size_t);
static void *(*next_realloc)(void *, size_t);
static void *(*next_calloc)(size_t, size_t);
static void *(*next_aligned_alloc)(size_t, size_t);
static int (*next_posix_memalign)(void **, size_t, size_t);
static int (*next_pthread_create)(pthread_t *, const pthread_attr_t *, void *(*)(void *), void *);

static long number(const char *name) {
  const char *given = getenv(name);
  return given ? atol(given) : 0;
}

__attribute__((constructor)) static void begin(void) {
  next_malloc = dlsym(RTLD_NEXT, "malloc");
  next_realloc = dlsym(RTLD_NEXT, "realloc");
  next_calloc = dlsym(RTLD_NEXT, "calloc");
  next_aligned_alloc = dlsym(RTLD_NEXT, "aligned_alloc");
  next_posix_memalign = dlsym(RTLD_NEXT, "posix_memalign");
  next_pthread_create = dlsym(RTLD_NEXT, "pthread_create");
  const char *kind = getenv("REFUSED");
  if (kind && !strcmp(kind, "memory")) {
    first_memory = number("FIRST");
    last_memory = number("LAST");
  } else if (kind && !strcmp(kind, "threads")) {
    first_threads = number("FIRST");
    last_threads = number("LAST");
  }
  if (getenv("NARROW")) most = 1;
  const char *names[] = {"READ_ROOM", "WRITE_ROOM", "SAY_ROOM"};
  for (int to = STDIN_FILENO; to <= STDERR_FILENO; to++)
    if (getenv(names[to])) rooms[to] = number(names[to]);
  if (getenv("INTERRUPTED")) fault = EINTR;
  const char *file = getenv("TALLY");
  if (file) tally = open(file, O_WRONLY | O_CREAT | O_TRUNC | O_CLOEXEC, 0600);
  /* What the loader asked for before doesn't count. */
  seen_memory = seen_threads = 0;
}

/* One line of the tally. */
static void tell(void) {
  char line[96];
  int length = snprintf(line, sizeof line, "%ld %ld %ld\n", written, seen_memory, seen_threads);
  syscall(SYS_write, tally, line, length);
}

static int is_refused(long *seen, long first, long last) {
  long place = __atomic_add_fetch(seen, 1, __ATOMIC_SEQ_CST);
  if (tally >= 0) tell();
  return first <= place && place <= last;
}

static int no_memory(void) {
  if (!is_refused(&seen_memory, first_memory, last_memory)) return 0;
  errno = ENOMEM;
  return 1;
}

void *malloc(size_t size) {
  if (!next_malloc) next_malloc = dlsym(RTLD_NEXT, "malloc");
  return no_memory() ? NULL : next_malloc(size);
}

void *realloc(void *old, size_t size) {
  if (!next_realloc) next_realloc = dlsym(RTLD_NEXT, "realloc");
  return no_memory() ? NULL : next_realloc(old, size);
}

void *calloc(size_t count, size_t size) {
  if (!next_calloc) next_calloc = dlsym(RTLD_NEXT, "calloc");
  return no_memory() ? NULL : next_calloc(count, size);
}

void *aligned_alloc(size_t unit, size_t size) {
  return no_memory() ? NULL : next_aligned_alloc(unit, size);
}

int posix_memalign(void **out, size_t unit, size_t size) {
  return no_memory() ? ENOMEM : next_posix_memalign(out, unit, size);
}

int pthread_create(pthread_t *thread, const pthread_attr_t *attr, void *(*work)(void *), void *given) {
  if (is_refused(&seen_threads, first_threads, last_threads)) return EAGAIN;
  return next_pthread_create(thread, attr, work, given);
}

static int is_limited(int which) {
  return STDIN_FILENO <= which && which <= STDERR_FILENO && rooms[which] >= 0;
}

/* How many of so many bytes go through in this call, where there is room left for some. -1: there is none. */
static ssize_t let_through(int which, size_t count) {
  if (count > most) count = most;
  if (!is_limited(which) || count == 0) return count;
  if (rooms[which] == 0) {
    errno = fault;
    return -1;
  }
  return count < (size_t)rooms[which] ? (ssize_t)count : rooms[which];
}

static void use_up(int which, ssize_t count) {
  if (is_limited(which) && count > 0) rooms[which] -= count;
}

ssize_t read(int from, void *bytes, size_t count) {
  ssize_t part = let_through(from, count);
  if (part < 0) return -1;
  ssize_t got = syscall(SYS_read, from, bytes, part);
  use_up(from, got);
  return got;
}

ssize_t write(int to, const void *bytes, size_t count) {
  if (to == STDOUT_FILENO && tally >= 0) tell();
  ssize_t part = let_through(to, count);
  if (part < 0) return -1;
  ssize_t took = syscall(SYS_write, to, bytes, part);
  use_up(to, took);
  if (to == STDOUT_FILENO && took > 0) written += took;
  return took;
}
