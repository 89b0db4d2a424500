/* The kernel's selftests of sync files, run on the sw_sync of ../../examples/c/libsync.c: allocation, fences of one
 * timeline and of several, merges, waits that other threads end, and timelines that are destroyed. */
#include "../../examples/c/libsync.h"

#include "expect.h"
#include <pthread.h>
#include <stdlib.h>

static void allocation(void)
{
    int timeline = sw_sync_timeline_create();

    EXPECT(sw_sync_timeline_is_valid(timeline), 1);
    int fence = sw_sync_fence_create(timeline, "allocFence", 1);
    EXPECT(sw_sync_fence_is_valid(fence), 1);
    EXPECT(sw_sync_fence_is_valid(timeline), 0);
    EXPECT(sw_sync_timeline_is_valid(fence), 0);
    EXPECT(sw_sync_fence_create(-1, "fence", 1), -1);
    EXPECT(sw_sync_timeline_inc(-1, 1), -1);
    EXPECT(sw_sync_timeline_inc(fence, 1), -1);
    EXPECT(sync_merge("none", fence, timeline), -1);
    EXPECT(sync_wait(timeline, 0), -1);
    EXPECT(sync_fence_size(9), -1);
    sw_sync_fence_destroy(fence);
    EXPECT(sw_sync_fence_is_valid(fence), 0);
    EXPECT(sync_wait(fence, 0), -1);
    sw_sync_timeline_destroy(timeline);
    EXPECT(sw_sync_timeline_is_valid(timeline), 0);
}

static void one_timeline(void)
{
    int timeline = sw_sync_timeline_create();
    int fence = sw_sync_fence_create(timeline, "fence", 5);

    EXPECT(sync_wait(fence, 0), 0);
    EXPECT(sync_fence_count_with_status(fence, FENCE_STATUS_ACTIVE), 1);
    EXPECT(sw_sync_timeline_inc(timeline, 4), 0);
    EXPECT(sync_wait(fence, 1), 0);
    EXPECT(sw_sync_timeline_inc(timeline, 1), 0);
    EXPECT(sync_wait(fence, 0), 1);
    EXPECT(sw_sync_timeline_inc(timeline, 10), 0);
    EXPECT(sync_fence_count_with_status(fence, FENCE_STATUS_SIGNALED), 1);
    sw_sync_fence_destroy(fence);
    sw_sync_timeline_destroy(timeline);
}

static void merges(void)
{
    int timelines[3], fences[3], merged;

    for (int i = 0; i < 3; i++) {
        timelines[i] = sw_sync_timeline_create();
        fences[i] = sw_sync_fence_create(timelines[i], "fence", 5);
    }
    int pair = sync_merge("pair", fences[0], fences[1]);
    merged = sync_merge("merged", pair, fences[2]);
    EXPECT(sync_fence_size(merged), 3);
    EXPECT(sync_fence_count_with_status(merged, FENCE_STATUS_ACTIVE), 3);
    for (int i = 0; i < 3; i++) {
        EXPECT(sync_wait(merged, 0), 0);
        sw_sync_timeline_inc(timelines[i], 5);
        EXPECT(sync_fence_count_with_status(merged, FENCE_STATUS_SIGNALED), i + 1);
    }
    EXPECT(sync_wait(merged, 0), 1);
    int same = sync_merge("same", fences[0], fences[0]);
    EXPECT(sync_fence_size(same), 1);
    sw_sync_fence_destroy(same);
    sw_sync_fence_destroy(merged);
    sw_sync_fence_destroy(pair);
    for (int i = 0; i < 3; i++) {
        sw_sync_fence_destroy(fences[i]);
        sw_sync_timeline_destroy(timelines[i]);
    }
}

static void destroyed_timeline(void)
{
    int timeline = sw_sync_timeline_create();
    int reached = sw_sync_fence_create(timeline, "reached", 1), pending = sw_sync_fence_create(timeline, "pending", 2);

    sw_sync_timeline_inc(timeline, 1);
    sw_sync_timeline_destroy(timeline);
    EXPECT(sync_wait(pending, 0), 1);
    EXPECT(sync_fence_count_with_status(pending, FENCE_STATUS_ERROR), 1);
    EXPECT(sync_fence_count_with_status(reached, FENCE_STATUS_SIGNALED), 1);
    sw_sync_fence_destroy(reached);
    sw_sync_fence_destroy(pending);
}

enum { STEPS = 500 };

static int turns[2];

/* Each of two threads advances its own timeline, and waits for the other's fence of the same step. */
static void *take_turns(void *given)
{
    int me = *(int *)given;

    for (unsigned step = 1; step <= STEPS; step++) {
        int fence = sw_sync_fence_create(turns[!me], "step", step);
        if (sw_sync_timeline_inc(turns[me], 1) || sync_wait(fence, -1) != 1)
            return "a step";
        sw_sync_fence_destroy(fence);
    }
    return NULL;
}

static void threads(void)
{
    pthread_t running[2];
    int numbers[2] = { 0, 1 };
    void *wrong;

    for (int i = 0; i < 2; i++)
        turns[i] = sw_sync_timeline_create();
    for (int i = 0; i < 2; i++)
        if (pthread_create(&running[i], NULL, take_turns, &numbers[i]))
            abort();
    for (int i = 0; i < 2; i++) {
        pthread_join(running[i], &wrong);
        HOLDS(wrong == NULL);
    }
    for (int i = 0; i < 2; i++)
        sw_sync_timeline_destroy(turns[i]);
}

/* More timelines in sequence than a desk can hold at once. */
static void many_timelines(void)
{
    for (int i = 0; i < 1000; i++) {
        int timeline = sw_sync_timeline_create();
        EXPECT(timeline, 3);
        sw_sync_timeline_destroy(timeline);
    }
}

int main(void)
{
    allocation();
    one_timeline();
    merges();
    destroyed_timeline();
    threads();
    many_timelines();
    return report("libsync");
}
