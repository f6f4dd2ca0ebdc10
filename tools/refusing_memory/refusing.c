/* Preloaded into a program, it refuses the allocation whose number, from 1, stands in REFUSE, and writes into the file named in COUNTED how many were
   asked for in all. What is asked for before the program's own `main` counts, too. Programs that it starts are without it. */
#define _GNU_SOURCE
#include <dlfcn.h>
#include <errno.h>
#include <stdio.h>
#include <stdlib.h>

static long asked, refused = -1;
static char counted[4096];

__attribute__((constructor)) static void begin(void) {
  if (refused >= 0) return;
  const char *text = getenv("REFUSE"), *path = getenv("COUNTED");
  refused = text ? atol(text) : 0;
  if (path) snprintf(counted, sizeof counted, "%s", path);
  unsetenv("LD_PRELOAD");
}

static int is_refused(void) {
  if (refused < 0) begin();
  if (++asked != refused) return 0;
  errno = ENOMEM;
  return 1;
}

void *malloc(size_t size) {
  static void *(*next)(size_t);
  if (!next) next = (void *(*)(size_t))dlsym(RTLD_NEXT, "malloc");
  return is_refused() ? NULL : next(size);
}

void *realloc(void *old, size_t size) {
  static void *(*next)(void *, size_t);
  if (!next) next = (void *(*)(void *, size_t))dlsym(RTLD_NEXT, "realloc");
  return is_refused() ? NULL : next(old, size);
}

void *aligned_alloc(size_t alignment, size_t size) {
  static void *(*next)(size_t, size_t);
  if (!next) next = (void *(*)(size_t, size_t))dlsym(RTLD_NEXT, "aligned_alloc");
  return is_refused() ? NULL : next(alignment, size);
}

int posix_memalign(void **block, size_t alignment, size_t size) {
  static int (*next)(void **, size_t, size_t);
  if (!next) next = (int (*)(void **, size_t, size_t))dlsym(RTLD_NEXT, "posix_memalign");
  return is_refused() ? ENOMEM : next(block, alignment, size);
}

__attribute__((destructor)) static void tell(void) {
  FILE *file = counted[0] ? fopen(counted, "w") : NULL;
  if (!file) return;
  fprintf(file, "%ld\n", asked);
  fclose(file);
}
