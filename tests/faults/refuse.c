/* Refuses one allocation of a program, for tests: a library for LD_PRELOAD. The variable REFUSED is the number of the
   allocation, from 1. With COUNTED=calls it counts only allocations after a line `call NAME` on standard output and
   before the next line. With COUNTED=signal it counts those after the signal SIGUSR1; otherwise all. It prints the line
   `refused` on standard error when it reaches the allocation. */

#include <errno.h>
#include <signal.h>
#include <stdatomic.h>
#include <stdlib.h>
#include <string.h>
#include <sys/syscall.h>
#include <unistd.h>

extern void *__libc_malloc(size_t size);
extern void *__libc_calloc(size_t count, size_t size);
extern void *__libc_realloc(void *block, size_t size);
extern void *__libc_memalign(size_t alignment, size_t size);

static atomic_long left;
static atomic_int counts;

static void count(int by) {
    (void)by;
    atomic_store(&counts, 1);
}

__attribute__((constructor)) static void begin(void) {
    const char *number = getenv("REFUSED"), *counted = getenv("COUNTED");
    atomic_store(&left, number ? atol(number) : 0);
    int begins_by_signal = counted && !strcmp(counted, "signal");
    atomic_store(&counts, !begins_by_signal && (!counted || strcmp(counted, "calls")));
    if (begins_by_signal)
        signal(SIGUSR1, count);
}

static int refuses(void) {
    static const char notice[] = "refused\n";
    if (!atomic_load(&counts) || atomic_load(&left) <= 0 || atomic_fetch_sub(&left, 1) != 1)
        return 0;
    syscall(SYS_write, 2, notice, sizeof notice - 1);
    errno = ENOMEM;
    return 1;
}

void *malloc(size_t size) { return refuses() ? NULL : __libc_malloc(size); }

void *calloc(size_t count, size_t size) { return refuses() ? NULL : __libc_calloc(count, size); }

void *realloc(void *block, size_t size) { return refuses() ? NULL : __libc_realloc(block, size); }

void *memalign(size_t alignment, size_t size) { return refuses() ? NULL : __libc_memalign(alignment, size); }

void *aligned_alloc(size_t alignment, size_t size) { return memalign(alignment, size); }

int posix_memalign(void **block, size_t alignment, size_t size) {
    void *made = memalign(alignment, size);
    if (!made)
        return ENOMEM;
    *block = made;
    return 0;
}

ssize_t write(int file, const void *bytes, size_t count) {
    static const char call[] = "call ";
    const char *counted = getenv("COUNTED");
    if (file == 1 && counted && !strcmp(counted, "calls"))
        atomic_store(&counts, 0);
    ssize_t written = syscall(SYS_write, file, bytes, count);
    if (file == 1 && count >= sizeof call - 1 && !memcmp(bytes, call, sizeof call - 1))
        atomic_store(&counts, 1);
    return written;
}

ssize_t __write(int file, const void *bytes, size_t count) { return write(file, bytes, count); }
