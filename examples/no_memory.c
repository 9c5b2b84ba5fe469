// Refuses one of the requests for memory that a program makes: the one with the number in REFUSE, counted from 1. Where
// COUNT names a file, it keeps there, as eight bytes, how many there were.
#define _GNU_SOURCE
#include <dlfcn.h>
#include <fcntl.h>
#include <stdatomic.h>
#include <stdlib.h>
#include <sys/mman.h>
#include <unistd.h>

static atomic_ulong own_requests;
static atomic_ulong *requests = &own_requests;
static unsigned long refused;

__attribute__((constructor)) static void begin(void) {
  const char *number = getenv("REFUSE");
  const char *count = getenv("COUNT");
  if (count) {
    int file = open(count, O_RDWR | O_CREAT | O_CLOEXEC, 0666);
    void *place = file < 0 || ftruncate(file, sizeof *requests) ? MAP_FAILED : mmap(NULL, sizeof *requests, PROT_READ | PROT_WRITE, MAP_SHARED, file, 0);
    if (place == MAP_FAILED)
      _exit(125);
    close(file);
    requests = place;
  }
  atomic_store(requests, 0);
  refused = number ? strtoul(number, NULL, 10) : 0;
}

static int refuse(void) { return atomic_fetch_add(requests, 1) + 1 == refused; }

void *malloc(size_t size) {
  static void *(*of_libc)(size_t);
  if (!of_libc)
    of_libc = (void *(*)(size_t))dlsym(RTLD_NEXT, "malloc");
  return refuse() ? NULL : of_libc(size);
}

void *realloc(void *block, size_t size) {
  static void *(*of_libc)(void *, size_t);
  if (!of_libc)
    of_libc = (void *(*)(void *, size_t))dlsym(RTLD_NEXT, "realloc");
  return refuse() ? NULL : of_libc(block, size);
}
