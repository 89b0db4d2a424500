/* A thread waits for another one's fence. The mistake (-DWRONG): it waits under a lock that the other takes before it signals. */
#include "kernel.h"
#include "queue.h"

static int work, done;
static pthread_mutex_t lock = PTHREAD_MUTEX_INITIALIZER;

static void *run(void *none)
{
    pthread_mutex_lock(&lock);
    EXPECT(inc(work, 1), 0);
    pthread_mutex_unlock(&lock);
    return none;
}

static void *wait_under(void *none)
{
    pause_for(20); /* the work is done long before */
#ifdef WRONG
    pthread_mutex_lock(&lock);
    wait_for(done);
    pthread_mutex_unlock(&lock);
#else
    wait_for(done);
#endif
    return none;
}

int main(void)
{
    pthread_t worker, waiter;

    give_up_after(20);
    work = timeline();
    done = fence(work, 1);
    start(&waiter, wait_under, NULL);
    start(&worker, run, NULL);
    pthread_join(worker, NULL);
    pthread_join(waiter, NULL);
    close(done);
    close(work);
    return report("under");
}
