/* Waits on an eventfd of Linux, which poll and epoll can watch beside sockets and timers. This is C and no part of what is proved. */
#define _POSIX_C_SOURCE 200809L
#include "waiter.h"

#include <errno.h>
#include <poll.h>
#include <stdatomic.h>
#include <stdint.h>
#include <stdlib.h>
#include <sys/eventfd.h>
#include <unistd.h>

/* Whoever clears the flag for another thread writes to the eventfd. So while the thread waits, the flag is set, or the eventfd is readable
 * or soon will be. What is left in the eventfd after a waiter_cancel ends the next wait early. */
struct waiter {
    atomic_bool is_waiting;
    int event;
};

/* These calls fail only if the program is wrong. */
static void must(bool is_done) {
    if (!is_done)
        abort();
}

struct waiter *waiter_open(void) {
    struct waiter *waiter = malloc(sizeof *waiter);
    if (!waiter)
        return NULL;
    atomic_init(&waiter->is_waiting, false);
    waiter->event = eventfd(0, EFD_CLOEXEC);
    if (waiter->event < 0) {
        free(waiter);
        return NULL;
    }
    return waiter;
}

void waiter_close(struct waiter *waiter) {
    must(close(waiter->event) == 0);
    free(waiter);
}

void waiter_prepare(struct waiter *waiter) {
    atomic_store(&waiter->is_waiting, true);
    atomic_thread_fence(memory_order_seq_cst);
}

void waiter_cancel(struct waiter *waiter) {
    atomic_store(&waiter->is_waiting, false);
}

bool waiter_wait(struct waiter *waiter, int milliseconds) {
    struct pollfd watched = {.fd = waiter->event, .events = POLLIN};
    int ready = poll(&watched, 1, milliseconds);
    must(ready >= 0 || errno == EINTR);
    if (ready > 0) {
        uint64_t count;
        must(read(waiter->event, &count, sizeof count) == (ssize_t)sizeof count);
    }
    atomic_store(&waiter->is_waiting, false);
    return ready != 0;
}

void waiter_notify(struct waiter *waiter) {
    const uint64_t one = 1;
    atomic_thread_fence(memory_order_seq_cst);
    if (!atomic_load_explicit(&waiter->is_waiting, memory_order_relaxed) || !atomic_exchange(&waiter->is_waiting, false))
        return;
    must(write(waiter->event, &one, sizeof one) == (ssize_t)sizeof one);
}
