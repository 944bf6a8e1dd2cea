/* Writes the lines of a store file as a checkpoint does, without proofs and without a log: the words stand in memory, are
 * copied to a buffer page by page, and written with the calls and syncs of a checkpoint. Beside it the program of the
 * benchmarks measures `checkpoint` over a log that holds the same words.
 *
 * usage: plain STORE PATH
 *
 * STORE is a store file after its first checkpoint. PATH is made anew, and filled as an empty store is before it is timed.
 * Two lines on standard error, as the benchmarks write them: by the clock, and by the processor. */
#define _GNU_SOURCE
#include <fcntl.h>
#include <stdint.h>
#include <stdio.h>
#include <stdlib.h>
#include <string.h>
#include <sys/stat.h>
#include <time.h>
#include <unistd.h>

enum { BODY_AT = 8192, BODY_BYTES = 86016, LINES_AT = 180224, PAGE_BYTES = 1048576, GATE_BYTES = 4096 };

static void fail(const char *what) {
  perror(what);
  exit(1);
}

static void put(int file, const void *from, size_t size, off_t at) {
  while (size > 0) {
    ssize_t count = pwrite(file, from, size, at);
    if (count <= 0) fail("pwrite");
    from = (const char *)from + count;
    size -= (size_t)count;
    at += count;
  }
}

static void put_synced(int file, const void *from, size_t size, off_t at) {
  put(file, from, size, at);
  if (fsync(file) != 0) fail("fsync");
}

static void take(int file, void *to, size_t size, off_t at) {
  while (size > 0) {
    ssize_t count = pread(file, to, size, at);
    if (count <= 0) fail("pread");
    to = (char *)to + count;
    size -= (size_t)count;
    at += count;
  }
}

static uint64_t now(clockid_t clock) {
  struct timespec time;
  if (clock_gettime(clock, &time) != 0) fail("clock_gettime");
  return (uint64_t)time.tv_sec * 1000000000u + (uint64_t)time.tv_nsec;
}

/* The words, low byte first, page by page. */
static void put_lines(int file, const uint64_t *words, size_t size) {
  uint8_t *page = malloc(PAGE_BYTES);
  if (page == NULL) fail("malloc");
  for (size_t at = 0; at < size; at += PAGE_BYTES) {
    size_t part = size - at < PAGE_BYTES ? size - at : PAGE_BYTES;
    for (size_t i = 0; i < part / 8; i++) {
      uint64_t word = htole64(words[at / 8 + i]);
      memcpy(page + 8 * i, &word, 8);
    }
    put(file, page, part, (off_t)(LINES_AT + at));
  }
  free(page);
}

int main(int count, char **args) {
  if (count != 3) {
    fprintf(stderr, "usage: plain STORE PATH\n");
    return 1;
  }
  int store = open(args[1], O_RDONLY);
  struct stat told;
  if (store < 0 || fstat(store, &told) != 0 || told.st_size < LINES_AT) fail(args[1]);
  size_t size = (size_t)told.st_size - LINES_AT;
  uint64_t *words = malloc(size);
  uint8_t *front = calloc(1, LINES_AT);
  if (words == NULL || front == NULL) fail("malloc");
  take(store, words, size, LINES_AT);
  take(store, front, LINES_AT, 0);
  close(store);

  /* an empty store: zeros, the body of slot 0, and its gate */
  int file = open(args[2], O_RDWR | O_CREAT | O_EXCL, 0666);
  if (file < 0) fail(args[2]);
  uint8_t opened = 1, closed = 0;
  void *zeros = calloc(1, LINES_AT);
  if (zeros == NULL) fail("calloc");
  put_synced(file, zeros, LINES_AT, 0);
  put_synced(file, front + BODY_AT, BODY_BYTES, BODY_AT);
  put_synced(file, &opened, 1, 0);

  uint64_t start = now(CLOCK_MONOTONIC), used = now(CLOCK_THREAD_CPUTIME_ID);
  put_lines(file, words, size);
  put_synced(file, front + BODY_AT + BODY_BYTES, BODY_BYTES, BODY_AT + BODY_BYTES);
  put_synced(file, &opened, 1, GATE_BYTES);
  put_synced(file, &closed, 1, 0);
  uint64_t took = now(CLOCK_MONOTONIC) - start;
  used = now(CLOCK_THREAD_CPUTIME_ID) - used;

  fprintf(stderr, "plain 1 lanes %llu ns %zu bytes\n", (unsigned long long)took, size);
  fprintf(stderr, "plain_cpu 1 lanes %llu ns %zu bytes\n", (unsigned long long)used, size);
  return 0;
}
