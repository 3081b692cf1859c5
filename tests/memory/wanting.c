/* An allocator that is short of memory, for LD_PRELOAD: it refuses some of the calls that a program
 * itself makes for memory, and none that the C library makes for its own needs.
 *
 * Calls are counted from the moment on that WANTING_SINCE names: "listen", once the program listens
 * for connections; "threads", while it has more than one thread; "start" or nothing, at once. Of
 * those that are counted it refuses
 *   WANTING_FIRST  the one of this number, the first one being 1, and
 *   WANTING_EVERY  each one that is so many behind it; without it, that one alone; 0 for all behind;
 *   WANTING_PARTS  so many of a thousand, drawn from WANTING_SEED;
 *   WANTING_ABOVE  if set, of all these just those for more bytes than that.
 * WANTING_OTHERS, if set, leaves the calls of the program's first thread alone. The file that
 * WANTING_COUNTS names, 24 bytes, has how many were counted and how many were refused. Once
 * somebody writes another number than 0 behind these, nothing more is refused. */
#define _GNU_SOURCE
#include <dlfcn.h>
#include <errno.h>
#include <fcntl.h>
#include <link.h>
#include <pthread.h>
#include <stdatomic.h>
#include <stdint.h>
#include <stdlib.h>
#include <string.h>
#include <sys/mman.h>
#include <sys/socket.h>
#include <unistd.h>

extern void *__libc_malloc(size_t);
extern void *__libc_calloc(size_t, size_t);
extern void *__libc_realloc(void *, size_t);

static _Atomic uint64_t own_counts[3];
static _Atomic uint64_t *counts = own_counts;
static atomic_int threads, listens;
static int since_listening, since_threads, has_first, has_every, others;
static uint64_t first, every, parts, above;
static _Atomic uint64_t draws;
static uintptr_t from, to;

static uint64_t number(const char *name, uint64_t otherwise) {
    const char *text = getenv(name);
    return text ? strtoull(text, NULL, 10) : otherwise;
}

/* The program itself comes first: where its code and data are. */
static int of_program(struct dl_phdr_info *info, size_t size, void *unused) {
    (void)size, (void)unused;
    from = UINTPTR_MAX;
    for (int k = 0; k < info->dlpi_phnum; k++) {
        if (info->dlpi_phdr[k].p_type != PT_LOAD)
            continue;
        uintptr_t begins = info->dlpi_addr + info->dlpi_phdr[k].p_vaddr;
        uintptr_t ends = begins + info->dlpi_phdr[k].p_memsz;
        from = begins < from ? begins : from;
        to = ends > to ? ends : to;
    }
    return 1;
}

__attribute__((constructor)) static void begin(void) {
    const char *since = getenv("WANTING_SINCE"), *file = getenv("WANTING_COUNTS");
    dl_iterate_phdr(of_program, NULL);
    since_listening = since && !strcmp(since, "listen");
    since_threads = since && !strcmp(since, "threads");
    has_first = getenv("WANTING_FIRST") != NULL;
    has_every = getenv("WANTING_EVERY") != NULL;
    others = getenv("WANTING_OTHERS") != NULL;
    first = number("WANTING_FIRST", 0);
    every = number("WANTING_EVERY", 0);
    parts = number("WANTING_PARTS", 0);
    above = number("WANTING_ABOVE", 0);
    draws = number("WANTING_SEED", 1);
    int opened = file ? open(file, O_RDWR | O_CREAT, 0600) : -1;
    if (opened < 0 || ftruncate(opened, sizeof own_counts))
        return;
    void *place = mmap(NULL, sizeof own_counts, PROT_READ | PROT_WRITE, MAP_SHARED, opened, 0);
    if (place != MAP_FAILED)
        counts = place;
    close(opened);
}

static int is_drawn(void) {
    uint64_t state = atomic_fetch_add(&draws, 0x9e3779b97f4a7c15u);
    state = (state ^ state >> 30) * 0xbf58476d1ce4e5b9u;
    state = (state ^ state >> 27) * 0x94d049bb133111ebu;
    return (state ^ state >> 31) % 1000 < parts;
}

static int is_refused(size_t bytes, void *caller) {
    if ((uintptr_t)caller < from || to <= (uintptr_t)caller)
        return 0;
    if ((since_listening && !listens) || (since_threads && threads < 1))
        return 0;
    if (others && getpid() == gettid())
        return 0;
    uint64_t count = atomic_fetch_add(&counts[0], 1) + 1;
    int is = has_first && (count == first ||
                           (has_every && count > first && (!every || (count - first) % every == 0)));
    if (!is && !(parts && is_drawn()))
        return 0;
    if (bytes <= above || counts[2])
        return 0;
    atomic_fetch_add(&counts[1], 1);
    errno = ENOMEM;
    return 1;
}

void *malloc(size_t bytes) {
    return is_refused(bytes, __builtin_return_address(0)) ? NULL : __libc_malloc(bytes);
}

void *calloc(size_t count, size_t bytes) {
    return is_refused(count * bytes, __builtin_return_address(0)) ? NULL
                                                                  : __libc_calloc(count, bytes);
}

void *realloc(void *block, size_t bytes) {
    return is_refused(bytes, __builtin_return_address(0)) ? NULL : __libc_realloc(block, bytes);
}

int listen(int socket, int queue) {
    int (*own)(int, int) = (int (*)(int, int))dlsym(RTLD_NEXT, "listen");
    int answer = own(socket, queue);
    listens += answer == 0;
    return answer;
}

int pthread_create(pthread_t *thread, const pthread_attr_t *with, void *(*run)(void *), void *word) {
    static int (*own)(pthread_t *, const pthread_attr_t *, void *(*)(void *), void *);
    if (!own)
        own = (int (*)(pthread_t *, const pthread_attr_t *, void *(*)(void *), void *))dlsym(
            RTLD_NEXT, "pthread_create");
    threads++;
    int answer = own(thread, with, run, word);
    if (answer)
        threads--;
    return answer;
}

int pthread_join(pthread_t thread, void **told) {
    static int (*own)(pthread_t, void **);
    if (!own)
        own = (int (*)(pthread_t, void **))dlsym(RTLD_NEXT, "pthread_join");
    int answer = own(thread, told);
    threads -= answer == 0;
    return answer;
}
