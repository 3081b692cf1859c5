/* Gives a file in the page cache the latency of a device, for LD_PRELOAD: each call that reads, writes
 * or syncs it waits first. Calls of several threads wait side by side, as those of a device with many
 * queues do, and a call waits as long for a megabyte as for a byte.
 *
 *   SLOW_DISK   the file; calls on others wait for nothing, nor do any without it
 *   SLOW_READ   microseconds of a read (80)
 *   SLOW_WRITE  of a write (20)
 *   SLOW_SYNC   of a sync (1000) */
#define _GNU_SOURCE
#include <dlfcn.h>
#include <errno.h>
#include <stdatomic.h>
#include <stdint.h>
#include <stdlib.h>
#include <sys/prctl.h>
#include <sys/stat.h>
#include <sys/types.h>
#include <sys/uio.h>
#include <time.h>
#include <unistd.h>

enum kind { READS, WRITES, SYNCS, KINDS };

static const char *file;
static uint64_t latency[KINDS];

static uint64_t number(const char *name, uint64_t otherwise) {
    const char *text = getenv(name);
    return text ? strtoull(text, NULL, 10) : otherwise;
}

__attribute__((constructor)) static void begin(void) {
    file = getenv("SLOW_DISK");
    latency[READS] = number("SLOW_READ", 80);
    latency[WRITES] = number("SLOW_WRITE", 20);
    latency[SYNCS] = number("SLOW_SYNC", 1000);
}

/* Whether the descriptor is of the file. It is looked up at each call, since it may be made later, or anew. */
static int is_slow(int descriptor) {
    struct stat own, slow;
    return file && fstat(descriptor, &own) == 0 && S_ISREG(own.st_mode) && stat(file, &slow) == 0 &&
           own.st_dev == slow.st_dev && own.st_ino == slow.st_ino;
}

/* Waits as long as a call of this kind takes. A thread's timers are 50 microseconds late, unless it says otherwise. */
static void wait_for(int descriptor, enum kind kind) {
    static _Thread_local int is_exact;
    int kept = errno;
    if (is_slow(descriptor)) {
        struct timespec until;
        if (!is_exact)
            is_exact = prctl(PR_SET_TIMERSLACK, 1UL, 0UL, 0UL, 0UL) == 0;
        clock_gettime(CLOCK_MONOTONIC, &until);
        uint64_t nanoseconds = (uint64_t)until.tv_nsec + latency[kind] * 1000;
        until.tv_sec += (time_t)(nanoseconds / 1000000000);
        until.tv_nsec = (long)(nanoseconds % 1000000000);
        while (clock_nanosleep(CLOCK_MONOTONIC, TIMER_ABSTIME, &until, NULL) == EINTR)
            ;
    }
    errno = kept;
}

/* A call of the C library that waits first: its kind, what it answers, its name, its parameters and their names. */
#define SLOW(kind, answer, name, parameters, words)                     \
    answer name parameters {                                            \
        static answer(*_Atomic real) parameters;                        \
        answer(*call) parameters = atomic_load(&real);                  \
        if (!call) {                                                    \
            call = (answer(*) parameters)dlsym(RTLD_NEXT, #name);       \
            atomic_store(&real, call);                                  \
        }                                                               \
        wait_for(fd, kind);                                             \
        return call words;                                              \
    }

SLOW(READS, ssize_t, read, (int fd, void *to, size_t size), (fd, to, size))
SLOW(READS, ssize_t, readv, (int fd, const struct iovec *parts, int count), (fd, parts, count))
SLOW(READS, ssize_t, pread, (int fd, void *to, size_t size, off_t at), (fd, to, size, at))
SLOW(READS, ssize_t, pread64, (int fd, void *to, size_t size, off64_t at), (fd, to, size, at))
SLOW(READS, ssize_t, preadv, (int fd, const struct iovec *parts, int count, off_t at), (fd, parts, count, at))
SLOW(READS, ssize_t, preadv64, (int fd, const struct iovec *parts, int count, off64_t at), (fd, parts, count, at))
SLOW(READS, ssize_t, preadv2, (int fd, const struct iovec *parts, int count, off_t at, int flags),
     (fd, parts, count, at, flags))
SLOW(READS, ssize_t, preadv64v2, (int fd, const struct iovec *parts, int count, off64_t at, int flags),
     (fd, parts, count, at, flags))
SLOW(WRITES, ssize_t, write, (int fd, const void *from, size_t size), (fd, from, size))
SLOW(WRITES, ssize_t, writev, (int fd, const struct iovec *parts, int count), (fd, parts, count))
SLOW(WRITES, ssize_t, pwrite, (int fd, const void *from, size_t size, off_t at), (fd, from, size, at))
SLOW(WRITES, ssize_t, pwrite64, (int fd, const void *from, size_t size, off64_t at), (fd, from, size, at))
SLOW(WRITES, ssize_t, pwritev, (int fd, const struct iovec *parts, int count, off_t at), (fd, parts, count, at))
SLOW(WRITES, ssize_t, pwritev64, (int fd, const struct iovec *parts, int count, off64_t at), (fd, parts, count, at))
SLOW(WRITES, ssize_t, pwritev2, (int fd, const struct iovec *parts, int count, off_t at, int flags),
     (fd, parts, count, at, flags))
SLOW(WRITES, ssize_t, pwritev64v2, (int fd, const struct iovec *parts, int count, off64_t at, int flags),
     (fd, parts, count, at, flags))
SLOW(SYNCS, int, fsync, (int fd), (fd))
SLOW(SYNCS, int, fdatasync, (int fd), (fd))
