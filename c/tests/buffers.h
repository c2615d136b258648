/* Buffers that end at a page that can be neither read nor written, so an access to that page ends the
 * program: sanitizers don't see the loads and stores of the archive, which is not
 * instrumented. The bytes before a buffer are checked when it is freed. Each thread has its own
 * buffers.
 *
 * A file that includes this defines _DEFAULT_SOURCE first. */
#ifndef BUFFERS_H
#define BUFFERS_H

#include <stddef.h>
#include <stdio.h>
#include <stdlib.h>
#include <string.h>
#include <sys/mman.h>
#include <unistd.h>

enum {
  BUFFERS = 32,          /* the most that a thread has at a time */
  BUFFER_EDGE = 64,      /* how many bytes before a buffer are checked */
  BUFFER_BYTE = 0xa5,    /* what a buffer is filled with */
  BUFFER_OUTSIDE = 0x5a  /* what the bytes before it are */
};

typedef struct guarded {
  unsigned char *pages; /* the last can't be read; NULL if there are none */
  size_t size;          /* in bytes, of the others */
  unsigned char *front; /* NULL if the buffer is free */
} guarded;

static __thread guarded buffers[BUFFERS];

/* Whether an empty buffer is the start of such a page, one past a block, and not NULL. */
static __thread int none_is_a_place;

static void stop(const char *why) {
  fprintf(stderr, "buffers.h: %s\n", why);
  abort();
}

/* Maps at least so many bytes before a page that can't be read. */
static void map_buffer(guarded *one, size_t size) {
  size_t page = (size_t)sysconf(_SC_PAGESIZE), pages = size / page + 1;
  if (one->pages != NULL)
    munmap(one->pages, one->size + page);
  void *mapped = mmap(NULL, (pages + 1) * page, PROT_READ | PROT_WRITE,
                      MAP_PRIVATE | MAP_ANONYMOUS, -1, 0);
  if (mapped == MAP_FAILED)
    stop("no memory");
  one->pages = (unsigned char *)mapped;
  one->size = pages * page;
  if (mprotect(one->pages + one->size, page, PROT_NONE) != 0)
    stop("no page can be protected");
}

/* A buffer of exactly so many bytes, with a copy of a text, or filled if there is none. */
static void *take_buffer(const void *text, size_t length) {
  if (length == 0 && !none_is_a_place)
    return NULL;
  guarded *one = buffers;
  while (one < buffers + BUFFERS && one->front != NULL)
    ++one;
  if (one == buffers + BUFFERS)
    stop("too many buffers");
  if (one->pages == NULL || one->size < length + BUFFER_EDGE)
    map_buffer(one, length + BUFFER_EDGE);
  one->front = one->pages + (one->size - length);
  memset(one->front - BUFFER_EDGE, BUFFER_OUTSIDE, BUFFER_EDGE);
  if (text == NULL)
    memset(one->front, BUFFER_BYTE, length);
  else
    memcpy(one->front, text, length);
  return one->front;
}

static void give_buffer(void *front) {
  if (front == NULL)
    return;
  guarded *one = buffers;
  while (one < buffers + BUFFERS && one->front != front)
    ++one;
  if (one == buffers + BUFFERS)
    stop("it is no such buffer");
  for (size_t i = 1; i <= BUFFER_EDGE; ++i)
    if (one->front[-(ptrdiff_t)i] != BUFFER_OUTSIDE)
      stop("a byte before a buffer was written");
  one->front = NULL;
}

#endif
