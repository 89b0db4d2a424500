/* A reader or writer of a buffer, by DMA_BUF_IOCTL_SYNC, and another thread that puts a fence of its next work into the buffer once the
 * buffer was given back. With an argument, `read` or `write`, the buffer is given back before that access has ended. */
#include "kernel.h"
#include <pthread.h>

enum { BYTES = 4096 };

static int work, memory;
static __u32 points;

/* Puts a pending fence into the buffer, as the kernel's drivers do at a submission. */
static void *submit(void *flags)
{
    int done = fence(work, ++points);

    EXPECT(import(memory, done, *(__u32 *)flags), 0);
    close(done);
    return NULL;
}

static void give_back(__u32 flags)
{
    pthread_t other;

    EXPECT(pthread_create(&other, NULL, submit, &flags), 0);
    pthread_join(other, NULL);
}

/* An access of the buffer. The other thread's work ends after it. */
static __attribute__((noinline)) void use(__u32 access, __u32 submitted, int is_early)
{
    EXPECT(access_buffer(memory, DMA_BUF_SYNC_START | access), 0);
    if (is_early)
        give_back(submitted);
    EXPECT(access_buffer(memory, DMA_BUF_SYNC_END | access), 0);
    if (!is_early)
        give_back(submitted);
    EXPECT(inc(work, 1), 0);
}

int main(int count, char **words)
{
    const char *early = count > 1 ? words[1] : "";

    work = timeline();
    memory = buffer(BYTES);
    use(DMA_BUF_SYNC_READ, DMA_BUF_SYNC_WRITE, strcmp(early, "read") == 0);
    use(DMA_BUF_SYNC_WRITE, DMA_BUF_SYNC_READ, strcmp(early, "write") == 0);
    /* A read doesn't wait for another read. */
    use(DMA_BUF_SYNC_READ, DMA_BUF_SYNC_READ, 1);
    close(memory);
    close(work);
    return report("accesses");
}
