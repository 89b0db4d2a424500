/* A lock for the threads of a process, which get it in the order in which they ask. Each sleeps on a word of its own, so
 * giving the lock wakes one thread, however many wait. */
#ifndef BIM_RUN_LOCK_H
#define BIM_RUN_LOCK_H

#include <stdatomic.h>
#include <stdint.h>

/* A thread that waits for the lock or has it. */
struct waiter {
    struct waiter *_Atomic next;
    _Atomic uint32_t waits;
};

/* Free if all its bytes are 0. */
struct lock {
    struct waiter *_Atomic last; /* of those who wait, or who has the lock */
};

/* `waiter` is used until the lock is given. */
void lock_take(struct lock *lock, struct waiter *waiter);
void lock_give(struct lock *lock, struct waiter *waiter);

#endif
