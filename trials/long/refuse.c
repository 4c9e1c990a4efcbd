// A library to be preloaded: of the growths of memory that a process asks for (malloc and realloc, counted from 1), it refuses the one with the number
// REFUSED of the surroundings, and makes the file that MET names then.
#define _GNU_SOURCE
#include <dlfcn.h>
#include <fcntl.h>
#include <stdatomic.h>
#include <stddef.h>
#include <stdlib.h>
#include <unistd.h>

static atomic_ulong asked;
static unsigned long refused;
static const char *met;
static void *(*given_malloc)(size_t);
static void *(*given_realloc)(void *, size_t);

__attribute__((constructor)) static void begin(void) {
  const char *number = getenv("REFUSED");
  met = getenv("MET");
  refused = number ? strtoul(number, 0, 10) : 0;
  atomic_store(&asked, 0);
}

static int is_refused(void) {
  if (!refused || atomic_fetch_add(&asked, 1) + 1 != refused) return 0;
  if (met) close(open(met, O_CREAT | O_WRONLY, 0600));
  return 1;
}

void *malloc(size_t size) {
  if (!given_malloc) given_malloc = dlsym(RTLD_NEXT, "malloc");
  return is_refused() ? 0 : given_malloc(size);
}

void *realloc(void *old, size_t size) {
  if (!given_realloc) given_realloc = dlsym(RTLD_NEXT, "realloc");
  return is_refused() ? 0 : given_realloc(old, size);
}
