/* For tools/wrong_libraries.sh: makes the program that `rt try` runs go through all of its requests for memory, each
 * refused in a child of its own.
 *
 * That program has its own allocator, a sanitizer's, which no preloaded one comes before. Its malloc and the like are
 * one jump each, and these are turned to the functions here (x86-64 alone).
 */
#define _GNU_SOURCE
#include <dlfcn.h>
#include <errno.h>
#include <stdint.h>
#include <stdio.h>
#include <stdlib.h>
#include <string.h>
#include <sys/mman.h>
#include <sys/wait.h>
#include <unistd.h>

#define MAX_REQUESTS 4000
#define JUMP_BYTES 5

static long *seen, refused;

static void *(*next_malloc)(size_t);
static void *(*next_realloc)(void *, size_t);
static void *(*next_calloc)(size_t, size_t);
static void *(*next_aligned_alloc)(size_t, size_t);
static int (*next_posix_memalign)(void **, size_t, size_t);

static int is_refused(void) {
  if (__atomic_add_fetch(seen, 1, __ATOMIC_SEQ_CST) != refused) return 0;
  errno = ENOMEM;
  return 1;
}

static void *our_malloc(size_t size) { return is_refused() ? NULL : next_malloc(size); }

static void *our_realloc(void *old, size_t size) { return is_refused() ? NULL : next_realloc(old, size); }

static void *our_calloc(size_t count, size_t size) { return is_refused() ? NULL : next_calloc(count, size); }

static void *our_aligned_alloc(size_t unit, size_t size) {
  return is_refused() ? NULL : next_aligned_alloc(unit, size);
}

static int our_posix_memalign(void **out, size_t unit, size_t size) {
  return is_refused() ? ENOMEM : next_posix_memalign(out, unit, size);
}

static void stop(const char *why) {
  fprintf(stderr, "sweep: %s\n", why);
  _exit(3);
}

/* A page of its own that is near enough for a jump. */
static unsigned char *page_near(uintptr_t base, size_t size) {
  for (uintptr_t way = 1; way < 30; way++) {
    void *found = mmap((void *)(base - (way << 26)), size, PROT_READ | PROT_WRITE | PROT_EXEC,
                       MAP_PRIVATE | MAP_ANONYMOUS | MAP_FIXED_NOREPLACE, -1, 0);
    if (found != MAP_FAILED) return found;
  }
  stop("no page is near the program");
  return NULL;
}

/* Turns the jump of the program's own function to ours, by way of such a page. */
static void turn(const char *name, void *ours, void *next) {
  unsigned char *at = dlsym(RTLD_DEFAULT, name);
  if (!at || *at != 0xe9) stop("the program's allocator isn't what it was");
  int32_t distance;
  memcpy(&distance, at + 1, sizeof distance);
  void *old = at + JUMP_BYTES + distance;
  memcpy(next, &old, sizeof old);
  uintptr_t page = sysconf(_SC_PAGESIZE), base = (uintptr_t)at & ~(page - 1);
  unsigned char *bridge = page_near(base, page);
  distance = bridge - (at + JUMP_BYTES);
  memcpy(bridge, "\x48\xb8", 2); /* mov rax, ours; jmp rax */
  memcpy(bridge + 2, &ours, sizeof ours);
  memcpy(bridge + 10, "\xff\xe0", 2);
  if (mprotect((void *)base, 2 * page, PROT_READ | PROT_WRITE | PROT_EXEC)) stop("the program can't be changed");
  memcpy(at + 1, &distance, sizeof distance);
}

__attribute__((constructor)) static void begin(void) {
  if (strcmp(program_invocation_short_name, "program")) return;
  seen = mmap(NULL, sizeof *seen, PROT_READ | PROT_WRITE, MAP_SHARED | MAP_ANONYMOUS, -1, 0);
  turn("malloc", our_malloc, &next_malloc);
  turn("realloc", our_realloc, &next_realloc);
  turn("calloc", our_calloc, &next_calloc);
  turn("aligned_alloc", our_aligned_alloc, &next_aligned_alloc);
  turn("posix_memalign", our_posix_memalign, &next_posix_memalign);
  for (refused = 1; refused <= MAX_REQUESTS; refused++) {
    *seen = 0;
    pid_t child = fork();
    if (child == 0) return;
    int status = 0;
    waitpid(child, &status, 0);
    if (WIFSIGNALED(status)) printf("wrong request %ld: signal %d\n", refused, WTERMSIG(status));
    if (*seen < refused) break;
  }
  printf("swept %ld requests\n", refused - 1);
  fflush(stdout);
  _exit(0);
}
