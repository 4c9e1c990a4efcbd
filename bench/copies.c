// A library to be preloaded: counts what a process takes from the heap, by size, in a file that COPIES names.
// The file holds a counter of 8 bytes for each size from 0 to SIZES - 1.
#define _GNU_SOURCE
#include <dlfcn.h>
#include <fcntl.h>
#include <stdatomic.h>
#include <stddef.h>
#include <stdlib.h>
#include <sys/mman.h>
#include <unistd.h>

enum { SIZES = 65536 };

static atomic_ulong *counts;
static void *(*given_malloc)(size_t);
static void *(*given_realloc)(void *, size_t);

__attribute__((constructor)) static void begin(void) {
  const char *path = getenv("COPIES");
  int file = path ? open(path, O_RDWR) : -1;
  if (file < 0) return;
  void *at = mmap(0, SIZES * 8, PROT_READ | PROT_WRITE, MAP_SHARED, file, 0);
  if (at != MAP_FAILED) counts = at;
  close(file);
}

static void count(size_t size) {
  if (counts && size < SIZES) atomic_fetch_add(&counts[size], 1);
}

void *malloc(size_t size) {
  if (!given_malloc) given_malloc = dlsym(RTLD_NEXT, "malloc");
  count(size);
  return given_malloc(size);
}

void *realloc(void *old, size_t size) {
  if (!given_realloc) given_realloc = dlsym(RTLD_NEXT, "realloc");
  count(size);
  return given_realloc(old, size);
}
