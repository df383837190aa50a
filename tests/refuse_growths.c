/* Refuses growths of memory of the program that it is loaded into by LD_PRELOAD, and counts them: each call of
   malloc, calloc and realloc from the program's start on is one.

   REFUSED is the number of the growth that is refused, from 1, and LATER=1 refuses each later one, too. At the end
   the count is written into the file that COUNTED names. */
#define _GNU_SOURCE
#include <dlfcn.h>
#include <errno.h>
#include <stdio.h>
#include <stdlib.h>

static unsigned long refused, met;
static int later;

static unsigned long number_of(const char *name)
{
  const char *word = getenv(name);
  return word ? strtoul(word, NULL, 10) : 0;
}

__attribute__((constructor)) static void begin(void)
{
  refused = number_of("REFUSED");
  later = number_of("LATER") == 1;
  met = 0;
}

__attribute__((destructor)) static void end(void)
{
  unsigned long count = met;
  const char *name = getenv("COUNTED");
  refused = 0;
  FILE *file = name ? fopen(name, "w") : NULL;
  if (file) {
    fprintf(file, "%lu\n", count);
    fclose(file);
  }
}

static int is_refused(void)
{
  met++;
  if (refused == 0 || met < refused || (met > refused && !later))
    return 0;
  errno = ENOMEM;
  return 1;
}

void *malloc(size_t size)
{
  static void *(*next)(size_t);
  if (!next)
    next = dlsym(RTLD_NEXT, "malloc");
  return is_refused() ? NULL : next(size);
}

void *realloc(void *old, size_t size)
{
  static void *(*next)(void *, size_t);
  if (!next)
    next = dlsym(RTLD_NEXT, "realloc");
  return is_refused() ? NULL : next(old, size);
}

void *calloc(size_t count, size_t size)
{
  static void *(*next)(size_t, size_t);
  if (!next)
    next = dlsym(RTLD_NEXT, "calloc");
  return is_refused() ? NULL : next(count, size);
}
