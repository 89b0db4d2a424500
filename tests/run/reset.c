/* A driver's queue whose timeline a reset replaces: the reset closes it, which cancels its fences, and opens another.
 * The mistake (-DWRONG): a fence is made outside of the lock, so on a timeline that the reset may have closed. */
#include "kernel.h"
#include "queue.h"

enum { JOBS = 4 };
static int timelines[2], at;
static pthread_mutex_t lock = PTHREAD_MUTEX_INITIALIZER;

static void *submit(void *none)
{
    for (int i = 0; i < JOBS; i++) {
        int file;

        pthread_mutex_lock(&lock);
#ifdef WRONG
        int timeline = timelines[at];
        pthread_mutex_unlock(&lock);
        file = fence(timeline, 1);
#else
        file = fence(timelines[at], (__u32)i + 1);
        pthread_mutex_unlock(&lock);
#endif
        EXPECT(file >= 0, 1);
        close(file);
    }
    return none;
}

static void *reset(void *none)
{
    pthread_mutex_lock(&lock);
    at = 1;
    pthread_mutex_unlock(&lock);
    close(timelines[0]);
    return none;
}

int main(void)
{
    pthread_t submitter, resetter;

    give_up_after(20);
    timelines[0] = timeline();
    timelines[1] = timeline();
    start(&submitter, submit, NULL);
    pause_for(5);
    start(&resetter, reset, NULL);
    pthread_join(submitter, NULL);
    pthread_join(resetter, NULL);
    close(timelines[1]);
    return report("reset");
}
