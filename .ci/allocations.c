// The C library's allocating functions, of which one call fails: that of the number which FAILING
// gives in the environment, from 1; and every later one too, where LATER_TOO is set. How many calls
// there were is written, at the end, to the file that COUNTED names.
#define _GNU_SOURCE
#include <dlfcn.h>
#include <errno.h>
#include <stdio.h>
#include <stdlib.h>

static long calls;

static int fails(void) {
  const char *number = getenv("FAILING");
  long failing = number ? atol(number) : 0;
  calls++;
  return failing && (calls == failing || (calls > failing && getenv("LATER_TOO")));
}

void *malloc(size_t size) {
  static void *(*real)(size_t);
  if (!real)
    real = dlsym(RTLD_NEXT, "malloc");
  if (fails()) {
    errno = ENOMEM;
    return NULL;
  }
  return real(size);
}

void *realloc(void *block, size_t size) {
  static void *(*real)(void *, size_t);
  if (!real)
    real = dlsym(RTLD_NEXT, "realloc");
  if (fails()) {
    errno = ENOMEM;
    return NULL;
  }
  return real(block, size);
}

__attribute__((destructor)) static void tell(void) {
  const char *name = getenv("COUNTED");
  long counted = calls;
  if (!name)
    return;
  FILE *file = fopen(name, "w");
  if (!file)
    return;
  fprintf(file, "%ld\n", counted);
  fclose(file);
}
