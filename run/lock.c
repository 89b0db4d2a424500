/* The queue of Mellor-Crummey and Scott, whose waiters sleep. */
#define _GNU_SOURCE
#include "lock.h"

#include <linux/futex.h>
#include <sched.h>
#include <stddef.h>
#include <sys/syscall.h>
#include <unistd.h>

enum { SPINS = 100 };

/* GCC's analysis across functions disregards atomic operations: a variable that these functions don't use would stay in a
 * register while another thread has the lock. */
#if __has_attribute(noipa)
#define ALONE __attribute__((noipa))
#else
#define ALONE
#endif

ALONE void lock_take(struct lock *lock, struct waiter *waiter)
{
    struct waiter *before;

    atomic_store_explicit(&waiter->next, NULL, memory_order_relaxed);
    atomic_store_explicit(&waiter->waits, 1, memory_order_relaxed);
    before = atomic_exchange(&lock->last, waiter);
    if (before)
        atomic_store_explicit(&before->next, waiter, memory_order_release);
    for (int spins = 0; before && atomic_load_explicit(&waiter->waits, memory_order_acquire); spins++)
        if (spins >= SPINS)
            syscall(SYS_futex, &waiter->waits, FUTEX_WAIT_PRIVATE, 1, NULL, NULL, 0);
}

/* The next thread may return, and its word be gone, before it is woken: to wake nobody does no harm. */
ALONE void lock_give(struct lock *lock, struct waiter *waiter)
{
    struct waiter *next = atomic_load_explicit(&waiter->next, memory_order_acquire), *last = waiter;

    if (!next && atomic_compare_exchange_strong(&lock->last, &last, NULL))
        return;
    /* A thread is asking, and about to store itself as the next. */
    while (!next) {
        sched_yield();
        next = atomic_load_explicit(&waiter->next, memory_order_acquire);
    }
    atomic_store_explicit(&next->waits, 0, memory_order_release);
    syscall(SYS_futex, &next->waits, FUTEX_WAKE_PRIVATE, 1, NULL, NULL, 0);
}
