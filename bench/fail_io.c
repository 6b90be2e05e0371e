/* Preloaded into a program, cuts its reads of standard input and its writes to standard output into pieces, and makes one
   of each fail. The environment says how:

   READ_PIECES, WRITE_PIECES   numbers with spaces between: a call moves at most so many bytes, over and over in turn
   FAIL_READ, FAIL_WRITE       the number, from 1 on, of the call that fails
   READ_ERROR, WRITE_ERROR     the number of the error that it fails with; a write with 0 answers that it took nothing
   COUNT_IO                    a file of 40 bytes, for five numbers of eight: the reads, those of them that failed, the
                               writes, those of them that failed or took nothing, and the bytes that were written
   KEEP_OFFERED                a file to which is added what was written, and of a write that failed all that it was to

   What is not there cuts nothing, fails nowhere and keeps nothing. bench/torture.sh compiles and uses it. */
#define _GNU_SOURCE
#include <dlfcn.h>
#include <errno.h>
#include <fcntl.h>
#include <stdint.h>
#include <stdlib.h>
#include <sys/mman.h>
#include <unistd.h>

#define MOST_PIECES 64
#define FIRST_FREE_FILE 100 /* so that no standard stream that is closed comes back as a file of this library */

struct plan {
    size_t pieces[MOST_PIECES], length;
    uint64_t failing;
    int error;
};

static struct plan reads, writes;
static uint64_t none[5], *counts = none;
static int offered = -1;
static ssize_t (*next_read)(int, void *, size_t);
static ssize_t (*next_write)(int, const void *, size_t);

static uint64_t number_of(const char *name) {
    const char *value = getenv(name);
    return value ? strtoull(value, NULL, 10) : 0;
}

static void take_plan(struct plan *plan, const char *pieces, const char *failing, const char *error) {
    const char *from = getenv(pieces);
    char *behind;
    while (from && *from && plan->length < MOST_PIECES) {
        size_t piece = strtoull(from, &behind, 10);
        if (behind == from) abort();
        plan->pieces[plan->length++] = piece ? piece : 1;
        from = behind;
    }
    plan->failing = number_of(failing);
    plan->error = (int)number_of(error);
}

/* The file that the environment names so, or -1 where it names none. */
static int open_named(const char *name, int how) {
    const char *file = getenv(name);
    int low = file ? open(file, how) : -1, high;
    if (low < 0) {
        if (file) abort();
        return -1;
    }
    high = fcntl(low, F_DUPFD, FIRST_FREE_FILE);
    close(low);
    return high;
}

__attribute__((constructor)) static void begin(void) {
    int at = open_named("COUNT_IO", O_RDWR);
    void *kept = at < 0 ? none : mmap(NULL, sizeof none, PROT_READ | PROT_WRITE, MAP_SHARED, at, 0);
    next_read = (ssize_t(*)(int, void *, size_t))dlsym(RTLD_NEXT, "read");
    next_write = (ssize_t(*)(int, const void *, size_t))dlsym(RTLD_NEXT, "write");
    if (kept == MAP_FAILED) abort();
    counts = kept;
    take_plan(&reads, "READ_PIECES", "FAIL_READ", "READ_ERROR");
    take_plan(&writes, "WRITE_PIECES", "FAIL_WRITE", "WRITE_ERROR");
    offered = open_named("KEEP_OFFERED", O_WRONLY | O_APPEND);
}

/* How many of the bytes the call of this number, from 1 on, may move. */
static size_t cut(const struct plan *plan, uint64_t number, size_t size) {
    size_t piece = plan->length ? plan->pieces[(number - 1) % plan->length] : size;
    return piece < size ? piece : size;
}

static void keep(const char *bytes, size_t size) {
    ssize_t count = 1;
    for (; offered >= 0 && size > 0 && count > 0; bytes += count, size -= (size_t)count)
        count = next_write(offered, bytes, size);
}

ssize_t read(int file, void *bytes, size_t size) {
    ssize_t count;
    uint64_t number;
    if (file != STDIN_FILENO) return next_read(file, bytes, size);
    number = ++counts[0];
    if (number == reads.failing) {
        counts[1]++;
        errno = reads.error;
        return -1;
    }
    count = next_read(file, bytes, cut(&reads, number, size));
    if (count < 0) counts[1]++;
    return count;
}

ssize_t write(int file, const void *bytes, size_t size) {
    ssize_t count;
    uint64_t number;
    int error;
    if (file != STDOUT_FILENO) return next_write(file, bytes, size);
    number = ++counts[2];
    count = writes.error ? -1 : 0;
    error = writes.error;
    if (number != writes.failing) {
        count = next_write(file, bytes, cut(&writes, number, size));
        error = errno;
    }
    if (count <= 0 && size > 0) counts[3]++;
    if (count > 0) counts[4] += (size_t)count;
    keep(bytes, count > 0 ? (size_t)count : size);
    errno = error;
    return count;
}
