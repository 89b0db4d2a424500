/* Two threads write to a dma-buf, one after the other by luck. The mistake (-DWRONG): no lock keeps them apart. */
#include "kernel.h"
#include "queue.h"

enum { BYTES = 4096 };
static int memory;
static pthread_mutex_t lock = PTHREAD_MUTEX_INITIALIZER;

static void write_to_memory(void)
{
    EXPECT(access_buffer(memory, DMA_BUF_SYNC_START | DMA_BUF_SYNC_WRITE), 0);
    EXPECT(access_buffer(memory, DMA_BUF_SYNC_END | DMA_BUF_SYNC_WRITE), 0);
}

static void *run(void *late)
{
    if (late)
        pause_for(20); /* the other thread is done long before */
#ifndef WRONG
    pthread_mutex_lock(&lock);
#endif
    write_to_memory();
#ifndef WRONG
    pthread_mutex_unlock(&lock);
#endif
    return NULL;
}

int main(void)
{
    pthread_t threads[2];

    give_up_after(20);
    memory = buffer(BYTES);
    start(&threads[0], run, NULL);
    start(&threads[1], run, &lock);
    for (int i = 0; i < 2; i++)
        pthread_join(threads[i], NULL);
    close(memory);
    return report("racing");
}
