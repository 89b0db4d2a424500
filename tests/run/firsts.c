/* Two threads make the first calls of a process at once. */
#include "kernel.h"
#include <pthread.h>
#include <sched.h>

enum { PROCESSES = 1500, THREADS = 2 };

static int line, shared;
static volatile int begun;

/* Makes an increment, or an access to a buffer. Returns whether it failed. */
static int call(void)
{
    return shared >= 0 ? access_buffer(shared, DMA_BUF_SYNC_START | DMA_BUF_SYNC_RW) : inc(line, 1);
}

static void *begin(void *failed)
{
    __atomic_add_fetch(&begun, 1, __ATOMIC_SEQ_CST);
    while (begun < THREADS)
        sched_yield();
    *(int *)failed = call() != 0;
    return NULL;
}

static int calls(int by_buffer)
{
    pthread_t threads[THREADS];
    int failed[THREADS], all = 0;

    line = timeline();
    shared = by_buffer ? buffer(1) : -1;
    for (int i = 0; i < THREADS; i++)
        if (pthread_create(&threads[i], NULL, begin, &failed[i]))
            return 1;
    for (int i = 0; i < THREADS; i++) {
        pthread_join(threads[i], NULL);
        all += failed[i];
    }
    return all;
}

int main(void)
{
    give_up_after(60);
    for (int i = 0; i < PROCESSES; i++) {
        pid_t child = fork();
        if (child == 0)
            _exit(calls(i % 2));
        EXPECT(end_of(child), 0);
    }
    return report("firsts");
}
