// Refuses allocations: the one whose place, from 1, the variable FAIL_AT names, and those up to FAIL_COUNT places on (1 where it isn't set).
// It writes to the file COUNT_FILE how many allocations a run makes, and how many octets they ask for altogether; to the file SHARED_FILE, which
// has to have 16 octets, it writes as they rise, so that they can be read while the program runs: how many were asked for, and how many were
// refused. Where FAIL_THREADS is set, a thread counts as an allocation too, of no octets. It is preloaded by refuse_allocations, refuse_serving
// and measure_decoding, and no part of the program.
#define _GNU_SOURCE
#include <dlfcn.h>
#include <errno.h>
#include <fcntl.h>
#include <pthread.h>
#include <stdio.h>
#include <stdlib.h>
#include <sys/mman.h>
#include <sys/syscall.h>
#include <unistd.h>

static unsigned long own[2], octets, first, last;
static unsigned long *counts = own; // how many were asked for, and how many were refused
static int threads_count;

// The allocator behind this one. None before it is found: dlsym itself may allocate.
static void *behind(const char *name) {
    return dlsym(RTLD_NEXT, name);
}

static int is_refused(size_t size) {
    __atomic_add_fetch(&octets, size, __ATOMIC_SEQ_CST);
    unsigned long place = __atomic_add_fetch(&counts[0], 1, __ATOMIC_SEQ_CST);
    if (place < first || place > last) return 0;
    __atomic_add_fetch(&counts[1], 1, __ATOMIC_SEQ_CST);
    return 1;
}

static unsigned long number_of(const char *name, unsigned long otherwise) {
    const char *text = getenv(name);
    return text ? strtoul(text, NULL, 10) : otherwise;
}

__attribute__((constructor)) static void begin(void) {
    const char *name = getenv("SHARED_FILE");
    int file = name ? open(name, O_RDWR) : -1;
    if (file >= 0) {
        void *page = mmap(NULL, sizeof own, PROT_READ | PROT_WRITE, MAP_SHARED, file, 0);
        if (page != MAP_FAILED) counts = page;
        close(file);
    }
    threads_count = getenv("FAIL_THREADS") != NULL;
    counts[0] = counts[1] = octets = 0;
    unsigned long place = number_of("FAIL_AT", 0);
    last = place ? place + number_of("FAIL_COUNT", 1) - 1 : 0;
    first = place ? place : 1;
}

__attribute__((destructor)) static void end(void) {
    unsigned long count = counts[0], asked = octets; // before fopen's own
    const char *name = getenv("COUNT_FILE");
    FILE *file = name ? fopen(name, "w") : NULL;
    if (file) {
        fprintf(file, "%lu %lu\n", count, asked);
        fclose(file);
    }
}

// A program that starts threads ends by this call, which runs no destructor.
void _exit(int status) {
    end();
    for (;;) syscall(SYS_exit_group, status);
}

void *malloc(size_t size) {
    static void *(*next)(size_t);
    if (!next) next = behind("malloc");
    return is_refused(size) ? NULL : next(size);
}

void *realloc(void *block, size_t size) {
    static void *(*next)(void *, size_t);
    if (!next) next = behind("realloc");
    return is_refused(size) ? NULL : next(block, size);
}

int posix_memalign(void **block, size_t alignment, size_t size) {
    static int (*next)(void **, size_t, size_t);
    if (!next) next = behind("posix_memalign");
    return is_refused(size) ? ENOMEM : next(block, alignment, size);
}

void *aligned_alloc(size_t alignment, size_t size) {
    static void *(*next)(size_t, size_t);
    if (!next) next = behind("aligned_alloc");
    return is_refused(size) ? NULL : next(alignment, size);
}

int pthread_create(pthread_t *thread, const pthread_attr_t *how, void *(*run)(void *), void *given) {
    static int (*next)(pthread_t *, const pthread_attr_t *, void *(*)(void *), void *);
    if (!next) next = behind("pthread_create");
    return threads_count && is_refused(0) ? EAGAIN : next(thread, how, run, given);
}
