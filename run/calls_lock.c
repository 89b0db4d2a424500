/* Locks of the C library, which order threads: a plan keeps these orders. Only with --plan and --follow; else each call passes on.
 * The C library's own locks don't come here, nor do those that a program makes of futexes or atomics. */
#define _GNU_SOURCE
#include "follow.h"
#include "recorder.h"
#include "shim.h"
#include "thread.h"

#include <errno.h>
#include <pthread.h>
#include <semaphore.h>
#include <threads.h>

#define OBJECT(at) ((uint64_t)(uintptr_t)(at))

/* Without --plan and --follow a call only jumps: programs lock more often than they do anything else here. */
#define PASSES(name, parameters, arguments)                                          \
    EXPORT int name parameters                                                       \
    {                                                                                \
        NEXT_IF_LOADED(name);                                                        \
                                                                                     \
        return next && !thread_is_on() ? next arguments : watched_##name arguments;  \
    }

/* A call that has the lock once it returns 0. A robust mutex may come with EOWNERDEAD. */
#define TAKES(name, kind, type, parameters, arguments)                               \
    static __attribute__((noinline)) int watched_##name parameters                   \
    {                                                                                \
        NEXT(name);                                                                  \
        bool has_lock;                                                               \
        int error;                                                                   \
                                                                                     \
        if (kind == LOG_MUTEX)                                                       \
            follow_begin_lock();                                                     \
        error = next arguments;                                                      \
        has_lock = error == 0 || error == EOWNERDEAD;                                \
        if (kind == LOG_MUTEX)                                                       \
            follow_end_lock(has_lock);                                               \
        if (has_lock)                                                                \
            recorder_acquire(kind, OBJECT(lock), kind == LOG_MUTEX ? thread_locks() : 0); \
        return error;                                                                \
    }                                                                                \
    PASSES(name, parameters, arguments)

#define GIVES(name, kind, type)                                                      \
    static __attribute__((noinline)) int watched_##name(type *lock)                  \
    {                                                                                \
        NEXT(name);                                                                  \
                                                                                     \
        recorder_release(kind, OBJECT(lock));                                        \
        return next(lock);                                                           \
    }                                                                                \
    PASSES(name, (type *lock), (lock))

#define LIMIT const struct timespec *restrict limit

TAKES(pthread_mutex_lock, LOG_MUTEX, pthread_mutex_t, (pthread_mutex_t * lock), (lock))
TAKES(pthread_mutex_trylock, LOG_MUTEX, pthread_mutex_t, (pthread_mutex_t * lock), (lock))
TAKES(pthread_mutex_timedlock, LOG_MUTEX, pthread_mutex_t, (pthread_mutex_t *restrict lock, LIMIT), (lock, limit))
TAKES(pthread_mutex_clocklock, LOG_MUTEX, pthread_mutex_t, (pthread_mutex_t *restrict lock, clockid_t clock, LIMIT),
      (lock, clock, limit))
GIVES(pthread_mutex_unlock, LOG_MUTEX, pthread_mutex_t)
TAKES(mtx_lock, LOG_MUTEX, mtx_t, (mtx_t * lock), (lock))
TAKES(mtx_trylock, LOG_MUTEX, mtx_t, (mtx_t * lock), (lock))
TAKES(mtx_timedlock, LOG_MUTEX, mtx_t, (mtx_t *restrict lock, LIMIT), (lock, limit))
GIVES(mtx_unlock, LOG_MUTEX, mtx_t)

TAKES(pthread_rwlock_rdlock, LOG_OTHER_LOCK, pthread_rwlock_t, (pthread_rwlock_t * lock), (lock))
TAKES(pthread_rwlock_tryrdlock, LOG_OTHER_LOCK, pthread_rwlock_t, (pthread_rwlock_t * lock), (lock))
TAKES(pthread_rwlock_wrlock, LOG_OTHER_LOCK, pthread_rwlock_t, (pthread_rwlock_t * lock), (lock))
TAKES(pthread_rwlock_trywrlock, LOG_OTHER_LOCK, pthread_rwlock_t, (pthread_rwlock_t * lock), (lock))
GIVES(pthread_rwlock_unlock, LOG_OTHER_LOCK, pthread_rwlock_t)

/* A spin lock is volatile, which no macro here is. */
TAKES(pthread_spin_lock, LOG_OTHER_LOCK, pthread_spinlock_t, (pthread_spinlock_t * lock), (lock))
TAKES(pthread_spin_trylock, LOG_OTHER_LOCK, pthread_spinlock_t, (pthread_spinlock_t * lock), (lock))
GIVES(pthread_spin_unlock, LOG_OTHER_LOCK, pthread_spinlock_t)

TAKES(sem_wait, LOG_OTHER_LOCK, sem_t, (sem_t * lock), (lock))
TAKES(sem_trywait, LOG_OTHER_LOCK, sem_t, (sem_t * lock), (lock))
TAKES(sem_timedwait, LOG_OTHER_LOCK, sem_t, (sem_t *restrict lock, LIMIT), (lock, limit))
GIVES(sem_post, LOG_OTHER_LOCK, sem_t)

EXPORT int pthread_barrier_wait(pthread_barrier_t *barrier)
{
    NEXT(pthread_barrier_wait);
    int result;

    recorder_release(LOG_OTHER_LOCK, OBJECT(barrier));
    result = next(barrier);
    recorder_acquire(LOG_OTHER_LOCK, OBJECT(barrier), 0);
    return result;
}

/* A wait gives the mutex, and has it again when it returns, whatever it returns. */
static int waited(void *condition, void *mutex, int result)
{
    recorder_acquire(LOG_MUTEX, OBJECT(mutex), 0);
    if (result == 0)
        recorder_acquire(LOG_CONDITION, OBJECT(condition), 0);
    return result;
}

#define WAITS(name, parameters, arguments)                 \
    EXPORT int name parameters                             \
    {                                                      \
        NEXT_CONDITION(name);                              \
                                                           \
        recorder_release(LOG_MUTEX, OBJECT(mutex));        \
        return waited(condition, mutex, next arguments);   \
    }

#define WAKES(name, type)                                  \
    EXPORT int name(type *condition)                       \
    {                                                      \
        NEXT_CONDITION(name);                              \
                                                           \
        recorder_release(LOG_CONDITION, OBJECT(condition)); \
        return next(condition);                            \
    }

/* Without a version, dlsym finds the conditions of programs from before 2003 on some machines. */
#define NEXT_CONDITION(name)                                                                   \
    static __typeof__(&name) next;                                                             \
    if (!next)                                                                                 \
        next = __extension__(__typeof__(&name)) dlvsym(RTLD_NEXT, #name, "GLIBC_2.3.2");       \
    if (!next)                                                                                 \
    next = __extension__(__typeof__(&name)) dlsym(RTLD_NEXT, #name)

WAITS(pthread_cond_wait, (pthread_cond_t *restrict condition, pthread_mutex_t *restrict mutex), (condition, mutex))
WAITS(pthread_cond_timedwait, (pthread_cond_t *restrict condition, pthread_mutex_t *restrict mutex, LIMIT),
      (condition, mutex, limit))
WAITS(pthread_cond_clockwait,
      (pthread_cond_t *restrict condition, pthread_mutex_t *restrict mutex, clockid_t clock, LIMIT),
      (condition, mutex, clock, limit))
WAKES(pthread_cond_signal, pthread_cond_t)
WAKES(pthread_cond_broadcast, pthread_cond_t)
WAITS(cnd_wait, (cnd_t * condition, mtx_t *mutex), (condition, mutex))
WAITS(cnd_timedwait, (cnd_t *restrict condition, mtx_t *restrict mutex, LIMIT), (condition, mutex, limit))
WAKES(cnd_signal, cnd_t)
WAKES(cnd_broadcast, cnd_t)
