/* A malloc that fails its Nth call: built as a library and loaded before the program, with REFUSE=N in the environment.
 * At the end it tells on standard error how many calls there were, once: where main returns, and at exit, _exit and _Exit. */
#define _GNU_SOURCE
#include <dlfcn.h>
#include <errno.h>
#include <stdio.h>
#include <stdlib.h>
#include <unistd.h>

static unsigned long calls;
static unsigned long refused;

static int refuses(void) {
  static int known;
  if (!known) {
    const char *text = getenv("REFUSE");
    known = 1;
    refused = text ? strtoul(text, NULL, 10) : 0;
  }
  calls += 1;
  if (calls != refused) return 0;
  errno = ENOMEM;
  return 1;
}

void *malloc(size_t size) {
  static void *(*next)(size_t);
  if (!next) next = dlsym(RTLD_NEXT, "malloc");
  return refuses() ? NULL : next(size);
}

void *realloc(void *old, size_t size) {
  static void *(*next)(void *, size_t);
  if (!next) next = dlsym(RTLD_NEXT, "realloc");
  return refuses() ? NULL : next(old, size);
}

int posix_memalign(void **place, size_t alignment, size_t size) {
  static int (*next)(void **, size_t, size_t);
  if (!next) next = dlsym(RTLD_NEXT, "posix_memalign");
  return refuses() ? ENOMEM : next(place, alignment, size);
}

void *aligned_alloc(size_t alignment, size_t size) {
  static void *(*next)(size_t, size_t);
  if (!next) next = dlsym(RTLD_NEXT, "aligned_alloc");
  return refuses() ? NULL : next(alignment, size);
}

__attribute__((destructor)) static void tell(void) {
  static int told;
  if (told) return;
  told = 1;
  char text[32];
  int length = snprintf(text, sizeof text, "%lu\n", calls);
  if (write(2, text, (size_t)length) < 0) _exit(1);
}

void _exit(int status) {
  static void (*next)(int) __attribute__((noreturn));
  tell();
  if (!next) next = dlsym(RTLD_NEXT, "_exit");
  next(status);
}

void _Exit(int status) { _exit(status); }
