/* The calls of libsync.h, over one desk behind a lock: tests written for the kernel's sw_sync link with this file.
 *
 * cc -pthread test.c libsync.c $(pkg-config --cflags --libs bimphlai)
 *
 * A descriptor is an index into a table, and its timeline or file on the desk is named after it: "f7", or "t7.2"
 * for the third timeline made, because a closed timeline keeps its name. The desk closes with the last descriptor,
 * so one test after another doesn't use up its timelines.
 */
#include "libsync.h"

#include <bimphlai.h>
#include <errno.h>
#include <pthread.h>
#include <stdbool.h>
#include <stdio.h>
#include <time.h>

/* Descriptors start after standard input, output and error. */
enum { FIRST = 3, END = FIRST + BIM_CONTEXTS + BIM_FILES };

enum kind { FREE, TIMELINE, FENCE };

struct descriptor {
    enum kind kind;
    char name[BIM_NAME_ROOM];
};

static pthread_mutex_t lock = PTHREAD_MUTEX_INITIALIZER;
static pthread_cond_t raised = PTHREAD_COND_INITIALIZER;
static bim_desk desk = BIM_DESK_INIT;
static struct descriptor table[END];
static int open_count;
static unsigned timelines_made;

static int errno_of(int refusal)
{
    switch (refusal) {
    case BIM_OK: return 0;
    case BIM_MEMORY: return ENOMEM;
    case BIM_LIMIT: return EMFILE;
    case BIM_CANCELLED: return ENOENT;
    case BIM_OVERFLOW: return EOVERFLOW;
    default: return EINVAL;
    }
}

/* Returns `value` if nothing was refused, else -1 with errno. */
static int answer(int refusal, int value)
{
    if (refusal == BIM_OK)
        return value;
    errno = errno_of(refusal);
    return -1;
}

static bool is_open(int at, enum kind kind)
{
    return at >= FIRST && at < END && table[at].kind == kind;
}

/* Fails as the kernel does for a bad descriptor. */
static int bad_descriptor(void)
{
    errno = EBADF;
    return -1;
}

/* Returns the least free descriptor, or -1 with errno. */
static int free_descriptor(void)
{
    for (int at = FIRST; at < END; at++)
        if (table[at].kind == FREE)
            return at;
    errno = EMFILE;
    return -1;
}

static int take(int at, enum kind kind, int refusal)
{
    if (refusal == BIM_OK) {
        table[at].kind = kind;
        open_count++;
    }
    return answer(refusal, at);
}

static void release(int at)
{
    table[at].kind = FREE;
    if (--open_count == 0) {
        bim_desk_close(&desk);
        timelines_made = 0;
    }
}

/* Opens the desk for the first descriptor. */
static int open_desk(void)
{
    return open_count > 0 || desk.at ? BIM_OK : bim_desk_open(&desk);
}

static int create_timeline(void)
{
    int at = free_descriptor(), refusal = open_desk();
    uint64_t context;

    if (at < 0)
        return -1;
    if (refusal == BIM_OK) {
        snprintf(table[at].name, sizeof table[at].name, "t%d.%u", at, timelines_made);
        refusal = bim_timeline(&desk, table[at].name, &context);
    }
    if (refusal == BIM_OK)
        timelines_made++;
    return take(at, TIMELINE, refusal);
}

static int create_fence(int timeline, unsigned value)
{
    int at = free_descriptor();

    if (!is_open(timeline, TIMELINE))
        return bad_descriptor();
    if (at < 0)
        return -1;
    snprintf(table[at].name, sizeof table[at].name, "f%d", at);
    return take(at, FENCE, bim_fence(&desk, table[at].name, table[timeline].name, value));
}

static int merge(int a, int b)
{
    int at = free_descriptor();

    if (!is_open(a, FENCE) || !is_open(b, FENCE))
        return bad_descriptor();
    if (at < 0)
        return -1;
    snprintf(table[at].name, sizeof table[at].name, "f%d", at);
    return take(at, FENCE, bim_merge(&desk, table[at].name, table[a].name, table[b].name));
}

/* Returns how many fences of a file have the status, or how many it has in all. */
static int count_fences(int fence, bool all, int status)
{
    bim_fence_info rows[BIM_CONTEXTS];
    int32_t of_file;
    size_t count;
    int refusal, found = 0;

    if (!is_open(fence, FENCE))
        return bad_descriptor();
    refusal = bim_info(&desk, table[fence].name, &of_file, rows, BIM_CONTEXTS, &count);
    if (refusal != BIM_OK)
        return answer(refusal, 0);
    for (size_t i = 0; i < count; i++)
        found += all || rows[i].status == status || (status == FENCE_STATUS_ERROR && rows[i].status < 0);
    return found;
}

static struct timespec after(int milliseconds)
{
    struct timespec end;

    clock_gettime(CLOCK_REALTIME, &end);
    end.tv_sec += milliseconds / 1000;
    end.tv_nsec += milliseconds % 1000 * 1000000L;
    if (end.tv_nsec >= 1000000000L) {
        end.tv_sec++;
        end.tv_nsec -= 1000000000L;
    }
    return end;
}

/* Waits, with the lock released meanwhile, until timelines have changed or the time is over. */
static bool wait_for_raise(int timeout, const struct timespec *end)
{
    if (timeout < 0)
        return pthread_cond_wait(&raised, &lock) == 0;
    return timeout > 0 && pthread_cond_timedwait(&raised, &lock, end) == 0;
}

static int wait_for(int fence, int timeout)
{
    struct timespec end = after(timeout > 0 ? timeout : 0);
    bool in_time = true;
    int refusal;

    /* The last check is made when the time is over. */
    for (;;) {
        if (!is_open(fence, FENCE))
            return bad_descriptor();
        refusal = bim_wait(&desk, table[fence].name);
        if (refusal != BIM_TIMED_OUT || !in_time)
            break;
        in_time = wait_for_raise(timeout, &end);
    }
    return refusal == BIM_TIMED_OUT ? 0 : answer(refusal, 1);
}

static int advance(int timeline, unsigned count)
{
    uint64_t value;
    int refusal;

    if (!is_open(timeline, TIMELINE))
        return bad_descriptor();
    refusal = bim_inc(&desk, table[timeline].name, count, &value);
    pthread_cond_broadcast(&raised);
    return answer(refusal, 0);
}

static void close_timeline(int timeline)
{
    uint64_t value;

    if (!is_open(timeline, TIMELINE))
        return;
    bim_shut(&desk, table[timeline].name, &value);
    pthread_cond_broadcast(&raised);
    release(timeline);
}

static void close_fence(int fence)
{
    if (!is_open(fence, FENCE))
        return;
    bim_close(&desk, table[fence].name);
    pthread_cond_broadcast(&raised);
    release(fence);
}

/* Each call takes the lock around one of the functions above. */
static int unlock(int result)
{
    pthread_mutex_unlock(&lock);
    return result;
}

int sw_sync_timeline_create(void)
{
    pthread_mutex_lock(&lock);
    return unlock(create_timeline());
}

int sw_sync_timeline_is_valid(int timeline)
{
    pthread_mutex_lock(&lock);
    return unlock(is_open(timeline, TIMELINE));
}

int sw_sync_timeline_inc(int timeline, unsigned count)
{
    pthread_mutex_lock(&lock);
    return unlock(advance(timeline, count));
}

void sw_sync_timeline_destroy(int timeline)
{
    pthread_mutex_lock(&lock);
    close_timeline(timeline);
    pthread_mutex_unlock(&lock);
}

int sw_sync_fence_create(int timeline, const char *name, unsigned value)
{
    (void)name; /* the kernel shows the name in debugfs only */
    pthread_mutex_lock(&lock);
    return unlock(create_fence(timeline, value));
}

int sw_sync_fence_is_valid(int fence)
{
    pthread_mutex_lock(&lock);
    return unlock(is_open(fence, FENCE));
}

void sw_sync_fence_destroy(int fence)
{
    pthread_mutex_lock(&lock);
    close_fence(fence);
    pthread_mutex_unlock(&lock);
}

int sync_merge(const char *name, int a, int b)
{
    (void)name;
    pthread_mutex_lock(&lock);
    return unlock(merge(a, b));
}

int sync_wait(int fence, int timeout)
{
    pthread_mutex_lock(&lock);
    return unlock(wait_for(fence, timeout));
}

int sync_fence_size(int fence)
{
    pthread_mutex_lock(&lock);
    return unlock(count_fences(fence, true, 0));
}

int sync_fence_count_with_status(int fence, int status)
{
    pthread_mutex_lock(&lock);
    return unlock(count_fences(fence, false, status));
}
