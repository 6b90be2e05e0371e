/* Preloaded into a program, makes one of its allocations find no memory: the one whose number, from 1 on, the
   environment gives as FAIL_ALLOCATION, and all later ones, too, where FAIL_LATER is there. How many allocations were
   asked for is kept in the file COUNT_ALLOCATIONS, of eight bytes. bench/fail_allocations.sh and bench/torture.sh compile
   and use it. */
#define _GNU_SOURCE
#include <dlfcn.h>
#include <errno.h>
#include <fcntl.h>
#include <stdint.h>
#include <stdlib.h>
#include <sys/mman.h>
#include <unistd.h>

static uint64_t none, failing, *count = &none;
static int later;
static void *(*next_malloc)(size_t);
static void *(*next_realloc)(void *, size_t);
static int (*next_memalign)(void **, size_t, size_t);

__attribute__((constructor)) static void begin(void) {
    const char *file = getenv("COUNT_ALLOCATIONS"), *number = getenv("FAIL_ALLOCATION");
    int at = file ? open(file, O_RDWR) : -1;
    void *kept = at < 0 ? MAP_FAILED : mmap(NULL, sizeof *count, PROT_READ | PROT_WRITE, MAP_SHARED, at, 0);
    next_malloc = (void *(*)(size_t))dlsym(RTLD_NEXT, "malloc");
    next_realloc = (void *(*)(void *, size_t))dlsym(RTLD_NEXT, "realloc");
    next_memalign = (int (*)(void **, size_t, size_t))dlsym(RTLD_NEXT, "posix_memalign");
    if (kept == MAP_FAILED) abort();
    close(at);
    count = kept;
    *count = 0;
    failing = number ? strtoull(number, NULL, 10) : 0;
    later = failing && getenv("FAIL_LATER");
}

/* Several threads may allocate beside each other. */
static int fails(void) {
    uint64_t number = __atomic_add_fetch(count, 1, __ATOMIC_SEQ_CST);
    return number == failing || (later && number > failing);
}

void *malloc(size_t size) {
    if (!next_malloc) next_malloc = (void *(*)(size_t))dlsym(RTLD_NEXT, "malloc");
    if (!fails()) return next_malloc(size);
    errno = ENOMEM;
    return NULL;
}

void *realloc(void *old, size_t size) {
    if (!next_realloc) next_realloc = (void *(*)(void *, size_t))dlsym(RTLD_NEXT, "realloc");
    if (!fails()) return next_realloc(old, size);
    errno = ENOMEM;
    return NULL;
}

int posix_memalign(void **place, size_t alignment, size_t size) {
    return fails() ? ENOMEM : next_memalign(place, alignment, size);
}
