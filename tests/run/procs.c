/* Two processes: an application draws frames into two buffers in turn, and a display, which inherits the buffers, shows them. Pipes
 * order them. The mistake (-DWRONG): a frame is committed before its fence is in the buffer. */
#include "kernel.h"
#include "queue.h"

enum { FRAMES = 4, BUFFERS = 2, BYTES = 4096 };
static int gpu, buffers[BUFFERS], commits[2], releases[2];
static struct queue jobs = QUEUE;

static void tell(const int *pipe, int frame)
{
    EXPECT(write(pipe[1], &frame, sizeof frame), (int)sizeof frame);
}

static int hear(const int *pipe)
{
    int frame = -1;

    EXPECT(read(pipe[0], &frame, sizeof frame), (int)sizeof frame);
    return frame;
}

static void *work(void *none)
{
    for (int frame = 0; frame < FRAMES; frame++) {
        int idle = get(&jobs);

        wait_for(idle);
        close(idle);
        EXPECT(inc(gpu, 1), 0);
    }
    return none;
}

static void draw(void)
{
    for (int frame = 0; frame < FRAMES; frame++) {
        int at = frame % BUFFERS, idle, drawn;

        if (frame >= BUFFERS)
            EXPECT(hear(releases), frame - BUFFERS);
        idle = export(buffers[at], DMA_BUF_SYNC_WRITE);
        drawn = fence(gpu, (__u32)frame + 1);
#ifdef WRONG
        tell(commits, frame);
        EXPECT(import(buffers[at], drawn, DMA_BUF_SYNC_WRITE), 0);
#else
        EXPECT(import(buffers[at], drawn, DMA_BUF_SYNC_WRITE), 0);
        tell(commits, frame);
#endif
        put(&jobs, idle);
        close(drawn);
    }
}

static int show(void)
{
    for (int frame = 0; frame < FRAMES; frame++) {
        int buffer = buffers[hear(commits) % BUFFERS];

        pause_for(2); /* the next vertical blank */
        EXPECT(access_buffer(buffer, DMA_BUF_SYNC_START | DMA_BUF_SYNC_READ), 0);
        EXPECT(access_buffer(buffer, DMA_BUF_SYNC_END | DMA_BUF_SYNC_READ), 0);
        tell(releases, frame);
    }
    return failures;
}

int main(void)
{
    pthread_t worker;
    pid_t display;

    give_up_after(20);
    gpu = timeline();
    for (int i = 0; i < BUFFERS; i++)
        buffers[i] = buffer(BYTES);
    EXPECT(pipe(commits), 0);
    EXPECT(pipe(releases), 0);
    display = fork();
    if (display == 0)
        _exit(show());
    start(&worker, work, NULL);
    draw();
    pthread_join(worker, NULL);
    EXPECT(end_of(display), 0);
    return report("procs");
}
