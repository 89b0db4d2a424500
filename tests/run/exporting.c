/* usage: exporting
 *
 * One process that shares a buffer: it imports a fence that a writer makes and one that a reader makes, and closes both files.
 * It exports what a writer and what a reader has to wait for, and waits for the first in vain. Then both fences signal. */
#include "kernel.h"

static int timeline_of(const char *task)
{
    prctl(PR_SET_NAME, task);
    return timeline();
}

/* Imports a new fence, which only the buffer has then. */
static void import_new(int b, int t, __u32 flags)
{
    int f = fence(t, 1);

    EXPECT(import(b, f, flags), 0);
    EXPECT(close(f), 0);
}

int main(void)
{
    give_up_after(20);
    int painter = timeline_of("painter"), screen = timeline_of("screen"), b = buffer(4096);
    import_new(b, painter, DMA_BUF_SYNC_WRITE);
    import_new(b, screen, DMA_BUF_SYNC_READ);
    int writing = export(b, DMA_BUF_SYNC_WRITE), reading = export(b, DMA_BUF_SYNC_READ);
    EXPECT(size(writing), 2);
    EXPECT(size(reading), 1);
    EXPECT(ready(writing, POLLIN, 1), 0);
    EXPECT(inc(painter, 1), 0);
    EXPECT(ready(b, POLLIN, SOON), POLLIN);
    EXPECT(is_signalled(reading), 1);
    EXPECT(inc(screen, 1), 0);
    EXPECT(is_signalled(writing), 1);
    int all[] = { writing, reading, b, painter, screen };
    for (int i = 0; i < 5; i++)
        EXPECT(close(all[i]), 0);
    return report("exporting");
}
