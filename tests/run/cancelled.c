/* An ioctl is no cancellation point: a cancelled thread finishes its call, and leaves neither a lock nor a descriptor
 * behind. */
#include "kernel.h"
#include <pthread.h>
#include <sys/syscall.h>

enum { THREADS = 60, MORE = 3 };

struct worker {
    pthread_t thread;
    int line, buffer;
    const struct sw_sync_create_fence_data *fixed; /* read-only memory */
    volatile int rounds, is_cancelled;
};

/* Makes calls that aren't cancellation points in Linux. */
static void *call(void *given)
{
    struct worker *worker = given;

    while (!worker->is_cancelled) {
        int f = fence(worker->line, (__u32)worker->rounds + 1);
        inc(worker->line, 1);
        syscall(SYS_close, f);
        ioctl(worker->line, SW_SYNC_IOC_CREATE_FENCE, worker->fixed);
        access_buffer(worker->buffer, DMA_BUF_SYNC_START | DMA_BUF_SYNC_RW);
        lseek(worker->buffer, 0, SEEK_END);
        worker->rounds++;
    }
    pthread_testcancel();
    return NULL;
}

static void await_rounds(const struct worker *worker, int count)
{
    for (int left = SOON; worker->rounds < count && left > 0; left--)
        pause_for(1);
    HOLDS(worker->rounds >= count);
}

/* Cancels a thread somewhere in its calls. Expects that it continues up to pthread_testcancel, and that other threads
 * can call then. */
static void cancel(struct worker *worker, int microseconds)
{
    void *result = NULL;

    worker->rounds = worker->is_cancelled = 0;
    worker->line = timeline();
    EXPECT(pthread_create(&worker->thread, NULL, call, worker), 0);
    await_rounds(worker, 1);
    usleep((useconds_t)microseconds);
    EXPECT(pthread_cancel(worker->thread), 0);
    await_rounds(worker, worker->rounds + MORE);
    worker->is_cancelled = 1;
    EXPECT(pthread_join(worker->thread, &result), 0);
    HOLDS(result == PTHREAD_CANCELED);
    EXPECT(inc(worker->line, 0), 0);
    EXPECT(close(worker->line), 0);
}

int main(void)
{
    int before = lowest(), t, f;
    struct worker worker = { .buffer = buffer(1) };

    give_up_after(40);
    worker.fixed = mmap(NULL, sizeof *worker.fixed, PROT_READ, MAP_PRIVATE | MAP_ANONYMOUS, -1, 0);
    HOLDS(worker.fixed != MAP_FAILED);
    for (int i = 0; i < THREADS; i++)
        cancel(&worker, 37 * i);
    t = timeline(), f = fence(t, 1);
    EXPECT(is_signalled(f), 0);
    EXPECT(inc(t, 1), 0);
    EXPECT(is_signalled(f), 1);
    int files[] = { f, t, worker.buffer };
    for (int i = 0; i < 3; i++)
        close(files[i]);
    /* A report on everything notices closings by system calls. */
    close(open(SYNC_INFO, O_RDONLY));
    EXPECT(lowest(), before);
    return report("cancelled");
}
