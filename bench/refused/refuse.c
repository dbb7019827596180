/* Preloaded into a program, it refuses the allocation of the number that REFUSE_AT says, counted from 1, and at the end
   writes how many were asked for to the file that REFUSE_COUNT names. */
#define _GNU_SOURCE
#include <dlfcn.h>
#include <errno.h>
#include <stdio.h>
#include <stdlib.h>

static unsigned long at, asked;

__attribute__((constructor)) static void begin(void) {
  const char *text = getenv("REFUSE_AT");
  asked = 0;
  at = text ? strtoul(text, NULL, 10) : 0;
}

__attribute__((destructor)) static void end(void) {
  const char *name = getenv("REFUSE_COUNT");
  FILE *file;
  at = 0;
  if (name && (file = fopen(name, "w"))) {
    fprintf(file, "%lu\n", asked);
    fclose(file);
  }
}

static int is_refused(void) { return at && ++asked == at; }

void *malloc(size_t size) {
  static void *(*real)(size_t);
  if (!real) real = dlsym(RTLD_NEXT, "malloc");
  if (is_refused()) { errno = ENOMEM; return NULL; }
  return real(size);
}

void *realloc(void *old, size_t size) {
  static void *(*real)(void *, size_t);
  if (!real) real = dlsym(RTLD_NEXT, "realloc");
  if (is_refused()) { errno = ENOMEM; return NULL; }
  return real(old, size);
}

void *aligned_alloc(size_t align, size_t size) {
  static void *(*real)(size_t, size_t);
  if (!real) real = dlsym(RTLD_NEXT, "aligned_alloc");
  if (is_refused()) { errno = ENOMEM; return NULL; }
  return real(align, size);
}

int posix_memalign(void **to, size_t align, size_t size) {
  static int (*real)(void **, size_t, size_t);
  if (!real) real = dlsym(RTLD_NEXT, "posix_memalign");
  if (is_refused()) return ENOMEM;
  return real(to, align, size);
}
