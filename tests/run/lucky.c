/* A race that luck hides: the program doesn't wait for the producer, since a short pause was always long enough. */
#include "kernel.h"
#include <pthread.h>

enum { ENOUGH = 10 };

static void *produce(void *timeline)
{
    inc(*(int *)timeline, 1);
    return NULL;
}

int main(void)
{
    pthread_t producer;
    int t = timeline(), f = fence(t, 1);

    EXPECT(pthread_create(&producer, NULL, produce, &t), 0);
    pause_for(ENOUGH);
    EXPECT(status(f), 1);
    pthread_join(producer, NULL);
    close(f);
    close(t);
    return report("lucky");
}
