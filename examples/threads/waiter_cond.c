/* Waits on a condition variable. This is C and no part of what is proved. */
#define _POSIX_C_SOURCE 200809L
#include "waiter.h"

#include <errno.h>
#include <pthread.h>
#include <stdatomic.h>
#include <stdlib.h>
#include <time.h>

/* The thread waits only while the flag is set. */
struct waiter {
    atomic_bool is_waiting;
    pthread_mutex_t lock;
    pthread_cond_t notified;
};

/* These calls fail only if the program is wrong. */
static void must(int error) {
    if (error != 0)
        abort();
}

struct waiter *waiter_open(void) {
    pthread_condattr_t attributes;
    struct waiter *waiter = malloc(sizeof *waiter);
    if (!waiter)
        return NULL;
    atomic_init(&waiter->is_waiting, false);
    must(pthread_mutex_init(&waiter->lock, NULL));
    must(pthread_condattr_init(&attributes));
    must(pthread_condattr_setclock(&attributes, CLOCK_MONOTONIC));
    must(pthread_cond_init(&waiter->notified, &attributes));
    must(pthread_condattr_destroy(&attributes));
    return waiter;
}

void waiter_close(struct waiter *waiter) {
    must(pthread_cond_destroy(&waiter->notified));
    must(pthread_mutex_destroy(&waiter->lock));
    free(waiter);
}

void waiter_prepare(struct waiter *waiter) {
    atomic_store(&waiter->is_waiting, true);
    atomic_thread_fence(memory_order_seq_cst);
}

void waiter_cancel(struct waiter *waiter) {
    atomic_store(&waiter->is_waiting, false);
}

static struct timespec from_now(int milliseconds) {
    struct timespec at;
    must(clock_gettime(CLOCK_MONOTONIC, &at));
    at.tv_sec += milliseconds / 1000;
    at.tv_nsec += milliseconds % 1000 * 1000000L;
    if (at.tv_nsec >= 1000000000L) {
        at.tv_sec++;
        at.tv_nsec -= 1000000000L;
    }
    return at;
}

bool waiter_wait(struct waiter *waiter, int milliseconds) {
    struct timespec end = from_now(milliseconds < 0 ? 0 : milliseconds);
    int error = 0;
    must(pthread_mutex_lock(&waiter->lock));
    while (atomic_load(&waiter->is_waiting) && error == 0) {
        if (milliseconds < 0)
            error = pthread_cond_wait(&waiter->notified, &waiter->lock);
        else
            error = pthread_cond_timedwait(&waiter->notified, &waiter->lock, &end);
    }
    bool is_notified = !atomic_exchange(&waiter->is_waiting, false);
    must(pthread_mutex_unlock(&waiter->lock));
    must(error == ETIMEDOUT ? 0 : error);
    return is_notified;
}

void waiter_notify(struct waiter *waiter) {
    atomic_thread_fence(memory_order_seq_cst);
    if (!atomic_load_explicit(&waiter->is_waiting, memory_order_relaxed))
        return;
    must(pthread_mutex_lock(&waiter->lock));
    atomic_store(&waiter->is_waiting, false);
    must(pthread_cond_signal(&waiter->notified));
    must(pthread_mutex_unlock(&waiter->lock));
}
