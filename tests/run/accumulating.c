/* A user of libdrm's header <libsync.h>, which gathers the fences of a batch as many drivers do. */
#include "kernel.h"
#include <libsync.h>

enum { COUNT = 10 };

int main(void)
{
    int timelines[COUNT], batch = -1;

    give_up_after(20);
    for (int i = 0; i < COUNT; i++) {
        timelines[i] = timeline();
        int f = fence(timelines[i], 1);
        EXPECT(sync_accumulate("batch", &batch, f), 0);
        close(f);
    }
    EXPECT(size(batch), COUNT);
    for (int i = 0; i < COUNT; i++) {
        FAILS(sync_wait(batch, 0), ETIME);
        EXPECT(inc(timelines[i], 1), 0);
    }
    EXPECT(sync_wait(batch, SOON), 0);
    EXPECT(sync_wait(batch, -1), 0);
    FAILS(sync_merge("none", timelines[0], batch), ENOTTY);
    int again = sync_merge("again", batch, batch);
    EXPECT(sync_wait(again, -1), 0);
    close(again);
    close(batch);
    FAILS(sync_wait(batch, -1), EINVAL);
    for (int i = 0; i < COUNT; i++)
        close(timelines[i]);
    return report("accumulating");
}
