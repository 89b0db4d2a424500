/* pthread_create(3), pthread_join(3) and their relatives. With --shuffle, or if threads have names, a thread begins in the library:
 * it gets its delays and its name from the thread that makes it, so neither depends on which thread runs first. */
#define _GNU_SOURCE
#include "calls.h"
#include "shim.h"
#include "shuffle.h"
#include "thread.h"

#include <errno.h>
#include <linux/futex.h>
#include <stdatomic.h>
#include <stdlib.h>
#include <threads.h>

/* The start of a new thread. */
struct beginning {
    void *(*run)(void *); /* or NULL for run_c11 */
    thrd_start_t run_c11;
    void *given;
    uint64_t stream; /* of --shuffle */
    struct thread_name name;
    _Atomic uint32_t is_kept; /* the maker has kept the name, so that whoever has the thread's handle can join it by name */
};

static void *begin_thread(void *given)
{
    struct beginning beginning;
    struct beginning *made = given;

    while (thread_is_on() && !made->is_kept)
        syscall(SYS_futex, &made->is_kept, FUTEX_WAIT_PRIVATE, 0, NULL, NULL, 0);
    beginning = *made;
    free(made);
    shuffle_start(beginning.stream);
    if (thread_is_on())
        thread_start(&beginning.name, beginning.run ? __extension__(void *)beginning.run : __extension__(void *)beginning.run_c11);
    if (beginning.run)
        return beginning.run(beginning.given);
    return (void *)(intptr_t)beginning.run_c11(beginning.given);
}

static int begin_c11_thread(void *given)
{
    return (int)(intptr_t)begin_thread(given);
}

/* Returns the start of a thread, or NULL if it begins in the program. */
static struct beginning *prepare(void *(*run)(void *), thrd_start_t run_c11, void *given)
{
    struct beginning *beginning;

    if (!shim_is_on() || !(shuffle_is_on() || thread_is_on()))
        return NULL;
    beginning = malloc(sizeof *beginning);
    if (beginning)
        *beginning = (struct beginning){ run, run_c11, given, shuffle_draw(), { "" }, 0 };
    if (beginning && thread_is_on())
        beginning->name = thread_draw();
    return beginning;
}

/* Lets a new thread run, which frees its start: waking nobody does no harm. */
static void let_begin(struct beginning *beginning, pthread_t thread)
{
    struct thread_name name = beginning->name;

    if (thread_is_on()) {
        thread_keep(thread, &name);
        beginning->is_kept = 1;
        syscall(SYS_futex, &beginning->is_kept, FUTEX_WAKE_PRIVATE, 1, NULL, NULL, 0);
    }
    shuffle_pause();
}

EXPORT int pthread_create(pthread_t *thread, const pthread_attr_t *how, void *(*run)(void *), void *given)
{
    NEXT(pthread_create);
    struct beginning *beginning = prepare(run, NULL, given);
    int error;

    if (!beginning)
        return next(thread, how, run, given);
    error = next(thread, how, begin_thread, beginning);
    if (error)
        free(beginning);
    else
        let_begin(beginning, *thread);
    return error;
}

EXPORT int thrd_create(thrd_t *thread, thrd_start_t run, void *given)
{
    NEXT(thrd_create);
    struct beginning *beginning = prepare(NULL, run, given);
    int result;

    if (!beginning)
        return next(thread, run, given);
    result = next(thread, begin_c11_thread, beginning);
    if (result != thrd_success)
        free(beginning);
    else
        let_begin(beginning, *thread);
    return result;
}

/* A thread's name is looked up before the join, after which another thread may have its handle. */
#define JOIN(name, parameters, arguments)                             \
    int name parameters;                                              \
    EXPORT int name parameters                                        \
    {                                                                 \
        NEXT(name);                                                   \
        struct thread_name joined;                                    \
        int result;                                                   \
                                                                      \
        if (!next)                                                    \
            return ENOSYS;                                            \
        if (!shim_is_on() || !thread_is_on())                         \
            return next arguments;                                    \
        joined = thread_of(thread);                                   \
        result = next arguments;                                      \
        if (result == 0)                                              \
            thread_tell(THREAD_JOINS, joined.text, 0);                \
        return result;                                                \
    }

JOIN(pthread_join, (pthread_t thread, void **result_of), (thread, result_of))
JOIN(pthread_tryjoin_np, (pthread_t thread, void **result_of), (thread, result_of))
JOIN(pthread_timedjoin_np, (pthread_t thread, void **result_of, const struct timespec *until),
     (thread, result_of, until))
JOIN(pthread_clockjoin_np, (pthread_t thread, void **result_of, clockid_t clock, const struct timespec *until),
     (thread, result_of, clock, until))
JOIN(thrd_join, (thrd_t thread, int *result_of), (thread, result_of))
