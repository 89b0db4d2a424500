/* Threads and processes that ask about a file in a loop until it signals don't keep others from signalling it. */
#include "kernel.h"
#include <pthread.h>

enum { STEPS = 1000, ASKING = 3, LONGEST = 10000 };

static int asked_about;

static void *ask_until(void *unused)
{
    volatile long *times = unused;

    while (status(asked_about) == 0)
        ++*times;
    return NULL;
}

int main(int argc, char **argv)
{
    int processes = argc > 1 ? atoi(argv[1]) : 0, t, u;
    pthread_t threads[ASKING];
    pid_t children[ASKING];
    volatile long times[ASKING] = { 0 };

    (void)argv;
    give_up_after(40);
    t = timeline();
    u = timeline();
    asked_about = fence(t, STEPS);
    for (int i = 0; i < processes && i < ASKING; i++) {
        children[i] = fork();
        if (children[i] == 0) {
            give_up_after(30);
            ask_until((void *)&times[i]);
            _exit(status(asked_about) != 1);
        }
    }
    for (int i = 0; i < ASKING; i++)
        EXPECT(pthread_create(&threads[i], NULL, ask_until, (void *)&times[i]), 0);
    for (int i = 0; i < ASKING; i++)
        while (times[i] == 0)
            pause_for(1);
    __u64 begun = now();
    for (__u32 i = 0; i < STEPS; i++) {
        int f = fence(u, i + 1);
        EXPECT(inc(u, 1), 0);
        EXPECT(is_signalled(f), 1);
        EXPECT(inc(t, 1), 0);
        close(f);
    }
    int took = (int)((now() - begun) / 1000000), longest = LONGEST * slowness();
    if (took > longest)
        printf("%d steps took %d ms\n", STEPS, took);
    HOLDS(took <= longest);
    for (int i = 0; i < ASKING; i++)
        pthread_join(threads[i], NULL);
    for (int i = 0; i < processes && i < ASKING; i++)
        EXPECT(end_of(children[i]), 0);
    EXPECT(status(asked_about), 1);
    close(asked_about);
    close(u);
    close(t);
    return report("starving");
}
