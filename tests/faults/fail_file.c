/* Makes calls on rooms' files fail, for tests: a library for LD_PRELOAD. It counts writes, truncations and syncs of files
   whose names end in `.record` or `.record.new`, and syncs of folders. The variable FAILED is the number of the call that fails, from 1.
   FAILURE is its error number. With LASTS all later calls fail too. With SHORT a failing write first writes
   half of its bytes. With the error 0 a write writes only the first half and reports that. The library prints the line
   `failed` on standard error when it reaches the call. Each sync of the file that SLOW names takes SLOW_MILLIS longer, and
   waits while the file HELD exists. */

#include <errno.h>
#include <stdatomic.h>
#include <stdio.h>
#include <stdlib.h>
#include <string.h>
#include <sys/stat.h>
#include <sys/syscall.h>
#include <time.h>
#include <unistd.h>

static atomic_long calls;
static long failed;
static int failure, lasts, is_short;
static const char *slow, *held;
static long slow_millis;

__attribute__((constructor)) static void begin(void) {
    const char *number = getenv("FAILED"), *error = getenv("FAILURE"), *millis = getenv("SLOW_MILLIS");
    failed = number ? atol(number) : 0;
    failure = error ? atoi(error) : EIO;
    lasts = getenv("LASTS") != NULL;
    is_short = getenv("SHORT") != NULL;
    slow = getenv("SLOW");
    slow_millis = millis ? atol(millis) : 0;
    held = getenv("HELD");
}

static int ends_in(int file, const char *end) {
    char link[64], path[4096];
    snprintf(link, sizeof link, "/proc/self/fd/%d", file);
    ssize_t length = readlink(link, path, sizeof path), most = strlen(end);
    return length >= most && !memcmp(path + length - most, end, most);
}

static int is_kept(int file) {
    struct stat status;
    if (fstat(file, &status))
        return 0;
    return S_ISDIR(status.st_mode) || ends_in(file, ".record") || ends_in(file, ".record.new");
}

static void pause_if_slow(int file) {
    struct timespec time = {slow_millis / 1000, slow_millis % 1000 * 1000000}, moment = {0, 1000000};
    if (!slow || !ends_in(file, slow))
        return;
    nanosleep(&time, NULL);
    while (held && !access(held, F_OK))
        nanosleep(&moment, NULL);
}

static int fails(int file) {
    static const char notice[] = "failed\n";
    if (!failed || !is_kept(file))
        return 0;
    long number = atomic_fetch_add(&calls, 1) + 1;
    if (number != failed && !(lasts && number > failed))
        return 0;
    if (number == failed)
        syscall(SYS_write, 2, notice, sizeof notice - 1);
    errno = failure;
    return 1;
}

static int is_failed(int file) { return fails(file) && failure; }

ssize_t write(int file, const void *bytes, size_t count) {
    if (!fails(file))
        return syscall(SYS_write, file, bytes, count);
    if (!failure)
        return syscall(SYS_write, file, bytes, (count + 1) / 2);
    if (is_short)
        syscall(SYS_write, file, bytes, count / 2);
    errno = failure;
    return -1;
}

ssize_t __write(int file, const void *bytes, size_t count) { return write(file, bytes, count); }

int fsync(int file) {
    pause_if_slow(file);
    return is_failed(file) ? -1 : (int)syscall(SYS_fsync, file);
}

int fdatasync(int file) {
    pause_if_slow(file);
    return is_failed(file) ? -1 : (int)syscall(SYS_fdatasync, file);
}

int ftruncate(int file, off_t length) { return is_failed(file) ? -1 : (int)syscall(SYS_ftruncate, file, length); }

int ftruncate64(int file, off_t length) { return ftruncate(file, length); }
