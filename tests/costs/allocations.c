/* Counts what a program allocates: a library to be loaded before it by LD_PRELOAD.
 *
 * When the program ends, a line 'PEAK ASKED REFUSED' is written to the file that the variable
 * ALLOCATIONS names: the most bytes that it held at a time, how many it asked for in all, also in
 * vain, and how often it was refused. If ALLOCATIONS_LIMIT is set, an allocation is refused if the
 * program would hold more bytes than that.
 *
 * A block counts with the bytes that the C library can use of it: the length, rounded up by at most
 * 24 bytes. What the program holds on the stack, and what it maps by itself, is not counted.
 */
#define _GNU_SOURCE
#include <dlfcn.h>
#include <malloc.h>
#include <stdint.h>
#include <stdio.h>
#include <stdlib.h>
#include <string.h>

static size_t held, peak, asked, refused, limit = SIZE_MAX;

static void *(*next_malloc)(size_t);
static void *(*next_calloc)(size_t, size_t);
static void *(*next_realloc)(void *, size_t);
static void (*next_free)(void *);

/* `dlsym` may call `calloc` before it returned that of the C library. */
static char early[4096];
static size_t early_used;

static int is_early(const void *block) {
  return (const char *)block >= early && (const char *)block < early + sizeof early;
}

static void find_next(void) {
  if (next_malloc != NULL)
    return;
  const char *given = getenv("ALLOCATIONS_LIMIT");
  next_calloc = (void *(*)(size_t, size_t))dlsym(RTLD_NEXT, "calloc");
  next_realloc = (void *(*)(void *, size_t))dlsym(RTLD_NEXT, "realloc");
  next_free = (void (*)(void *))dlsym(RTLD_NEXT, "free");
  next_malloc = (void *(*)(size_t))dlsym(RTLD_NEXT, "malloc");
  if (given != NULL)
    limit = strtoull(given, NULL, 10);
}

/* Whether so many bytes more may be held. */
static int may_take(size_t size) {
  asked += size;
  if (held <= limit && size <= limit - held)
    return 1;
  ++refused;
  return 0;
}

static void *taken(void *block) {
  if (block != NULL)
    held += malloc_usable_size(block);
  if (held > peak)
    peak = held;
  return block;
}

void *malloc(size_t size) {
  find_next();
  return may_take(size) ? taken(next_malloc(size)) : NULL;
}

void *calloc(size_t count, size_t size) {
  if (next_calloc == NULL) {
    size_t bytes = (count * size + 15) / 16 * 16;
    if (bytes > sizeof early - early_used)
      return NULL;
    early_used += bytes;
    return early + early_used - bytes;
  }
  size_t bytes;
  if (__builtin_mul_overflow(count, size, &bytes))
    return NULL;
  return may_take(bytes) ? taken(next_calloc(count, size)) : NULL;
}

void *realloc(void *block, size_t size) {
  find_next();
  if (block == NULL)
    return malloc(size);
  size_t before = malloc_usable_size(block);
  held -= before;
  if (!may_take(size)) {
    held += before;
    return NULL;
  }
  void *moved = next_realloc(block, size);
  if (moved == NULL && size > 0)
    held += before;
  return taken(moved);
}

void free(void *block) {
  find_next();
  if (block == NULL || is_early(block))
    return;
  held -= malloc_usable_size(block);
  next_free(block);
}

__attribute__((destructor)) static void report(void) {
  const char *name = getenv("ALLOCATIONS");
  size_t counts[3] = {peak, asked, refused};
  limit = SIZE_MAX;
  FILE *file = name == NULL ? NULL : fopen(name, "w");
  if (file == NULL)
    return;
  fprintf(file, "%zu %zu %zu\n", counts[0], counts[1], counts[2]);
  fclose(file);
}
