/* A thread looks at a flag: only if it is set, the file has to have signalled. So no order is wrong. No library sees the flag, so the plan
 * of a run in which it was set has an order in which the thread's call is another one. */
#include "kernel.h"
#include "queue.h"

#include <stdatomic.h>
#include <stdbool.h>

static int work, done;
static atomic_bool is_done;

static void *run(void *none)
{
    EXPECT(inc(work, 1), 0);
    is_done = true;
    return none;
}

static void ask_once_done(void)
{
    EXPECT(status(done), 1);
}

static void ask_before(void)
{
    EXPECT(status(done) < 0, 0);
}

int main(void)
{
    pthread_t worker;

    give_up_after(20);
    work = timeline();
    done = fence(work, 1);
    start(&worker, run, NULL);
    pause_for(20); /* the work is done long before */
    if (is_done)
        ask_once_done();
    else
        ask_before();
    pthread_join(worker, NULL);
    return report("flags");
}
