/* Has one request of a program fail: the one whose number stands in REFUSE, from 1 on, among those for memory, or, where OF is
   `threads`, among those for a thread. Where COUNTED names a file, the number of these requests is written there at the end, and how many
   threads have not ended by then. To be loaded before the C library, by LD_PRELOAD. */
#define _GNU_SOURCE
#include <dlfcn.h>
#include <errno.h>
#include <pthread.h>
#include <stdatomic.h>
#include <stdio.h>
#include <stdlib.h>
#include <string.h>

enum kind { MEMORY, THREADS };

static atomic_long asked;
static long refused;
static enum kind counted;

/* What threads are started with, and how many of them have not ended. */
struct start {
    void *(*body)(void *);
    void *given;
};

enum { MOST_STARTS = 4096 };

static struct start starts[MOST_STARTS];
static atomic_long started;
static atomic_long live;

__attribute__((constructor)) static void begin(void) {
    const char *number = getenv("REFUSE");
    const char *of = getenv("OF");
    refused = number ? atol(number) : 0;
    counted = of && strcmp(of, "threads") == 0 ? THREADS : MEMORY;
    asked = 0;
}

__attribute__((destructor)) static void end(void) {
    long count = asked, left = live;
    const char *path = getenv("COUNTED");
    FILE *file = path ? fopen(path, "w") : NULL;
    if (file) {
        fprintf(file, "%ld %ld\n", count, left);
        fclose(file);
    }
}

/* A program with threads ends at once. */
__attribute__((noreturn)) void _exit(int status) {
    void (*real)(int);
    *(void **)&real = dlsym(RTLD_NEXT, "_exit");
    end();
    real(status);
    abort();
}

/* Whether what is asked for now is to fail. */
static int fails(enum kind kind) {
    return kind == counted && atomic_fetch_add(&asked, 1) + 1 == refused;
}

void *malloc(size_t size) {
    static void *(*real)(size_t);
    if (!real)
        *(void **)&real = dlsym(RTLD_NEXT, "malloc");
    if (!fails(MEMORY))
        return real(size);
    errno = ENOMEM;
    return NULL;
}

void *realloc(void *old, size_t size) {
    static void *(*real)(void *, size_t);
    if (!real)
        *(void **)&real = dlsym(RTLD_NEXT, "realloc");
    if (!fails(MEMORY))
        return real(old, size);
    errno = ENOMEM;
    return NULL;
}

static void *run_body(void *given) {
    struct start *start = given;
    void *result = start->body(start->given);
    atomic_fetch_sub(&live, 1);
    return result;
}

int pthread_create(pthread_t *thread, const pthread_attr_t *how, void *(*body)(void *), void *given) {
    static int (*real)(pthread_t *, const pthread_attr_t *, void *(*)(void *), void *);
    if (!real)
        *(void **)&real = dlsym(RTLD_NEXT, "pthread_create");
    long place = atomic_fetch_add(&started, 1);
    if (fails(THREADS) || place >= MOST_STARTS)
        return EAGAIN;
    starts[place] = (struct start){body, given};
    atomic_fetch_add(&live, 1);
    int failed = real(thread, how, run_body, &starts[place]);
    if (failed)
        atomic_fetch_sub(&live, 1);
    return failed;
}
