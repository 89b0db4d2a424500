/* Calls every function of a device with valid and invalid arguments. A refused call must not change its
 * out-parameters. */
#include <bimphlai.h>

#include "expect.h"
#include <errno.h>
#include <stdlib.h>
#include <string.h>

#define LONGEST "a234567890123456789012345678901"
/* The initial value of out-parameters that a refused call must not change; and a number that no object has. */
enum { KEPT = 77, NOTHING = 1000000 };

static void errnos(void)
{
    EXPECT(BIM_ENOENT, ENOENT);
    EXPECT(BIM_EBADF, EBADF);
    EXPECT(BIM_ENOMEM, ENOMEM);
    EXPECT(BIM_EEXIST, EEXIST);
    EXPECT(BIM_EINVAL, EINVAL);
    EXPECT(BIM_ENOTTY, ENOTTY);
    EXPECT(BIM_ENOSPC, ENOSPC);
    EXPECT(BIM_EOVERFLOW, EOVERFLOW);
}

/* Expects that each call fails with one errno, and stores nothing: the device is closed, or each number belongs to an
 * object of another kind or to none. */
static void refused(bim_device *device, uint64_t no_timeline, uint64_t no_file, uint64_t no_buffer, int wanted)
{
    uint64_t number = KEPT;
    int32_t status = KEPT;
    bim_device_file_info info;
    bim_device_fence_info row;
    bim_device_point point = { KEPT, KEPT, KEPT };
    bim_device_raised raised = { KEPT, KEPT };

    memset(&info, KEPT, sizeof info);
    memset(&row, KEPT, sizeof row);
    EXPECT(bim_device_fence(device, no_timeline, 1, 0, &number), wanted);
    EXPECT(bim_device_inc(device, no_timeline, 1, 0, &raised), wanted);
    EXPECT(bim_device_value(device, no_timeline, &number), wanted);
    EXPECT(bim_device_first_due(device, no_timeline, 1, &number), wanted);
    EXPECT(bim_device_fence_of(device, no_file, 0, &point), wanted);
    EXPECT(bim_device_merge(device, no_file, no_file, "m", &number), wanted);
    EXPECT(bim_device_merge_n(device, no_file, no_file, "m", 1, &number), wanted);
    EXPECT(bim_device_status(device, no_file, &status), wanted);
    EXPECT(bim_device_is_signalled(device, no_file, &status), wanted);
    EXPECT(bim_device_info(device, no_file, &info, &row, 1), wanted);
    EXPECT(bim_device_info_n(device, no_file, &info, &row, 1), wanted);
    EXPECT(bim_device_export(device, no_buffer, BIM_SYNC_RW, &number), wanted);
    EXPECT(bim_device_export(device, no_buffer, 0, &number), wanted);
    EXPECT(bim_device_import(device, no_buffer, no_file, BIM_SYNC_RW), wanted);
    EXPECT(bim_device_import(device, no_buffer, no_file, 0), wanted);
    EXPECT(bim_device_test(device, no_buffer, BIM_READ, &status), wanted);
    EXPECT(number, KEPT);
    EXPECT(status, KEPT);
    HOLDS(point.timeline == KEPT && point.value == KEPT && point.is_pending == KEPT);
    HOLDS(raised.pending == KEPT && raised.woken == KEPT);
    HOLDS(info.name[0] == KEPT && info.status == row.status && row.timeline[0] == KEPT);
}

static void closed_device(void)
{
    bim_device device = BIM_DEVICE_INIT;
    uint64_t number = KEPT;
    int32_t signalled = KEPT;

    refused(&device, 1, 1, 1, BIM_EBADF);
    EXPECT(bim_device_timeline(&device, "a", &number), BIM_EBADF);
    EXPECT(bim_device_timeline_n(&device, "a", 1, &number), BIM_EBADF);
    EXPECT(bim_device_release(&device, 1, 0), BIM_EBADF);
    EXPECT(bim_device_buffer(&device, 0, &number), BIM_EBADF);
    EXPECT(bim_device_test(&device, 1, BIM_BOOKKEEP + 1, &signalled), BIM_EBADF);
    EXPECT(bim_device_take_woken(&device, &number, 1), 0);
    bim_device_close(&device);
    EXPECT(number, KEPT);
    EXPECT(signalled, KEPT);
    HOLDS(device.at == NULL);
}

/* Numbers rise from 1 over all kinds of objects, and a refused call uses none. */
static void numbers(bim_device *device)
{
    uint64_t timeline, file, buffer, merged, number = KEPT;
    int32_t signalled = KEPT;

    EXPECT(bim_device_timeline(device, "a", &timeline), 0);
    EXPECT(timeline, 1);
    EXPECT(bim_device_fence(device, timeline, 5, 0, &file), 0);
    EXPECT(file, 2);
    EXPECT(bim_device_buffer(device, 0, &buffer), 0);
    EXPECT(buffer, 3);
    refused(device, NOTHING, NOTHING, NOTHING, BIM_ENOENT);
    refused(device, 0, 0, 0, BIM_ENOENT);
    refused(device, UINT64_MAX, UINT64_MAX, UINT64_MAX, BIM_ENOENT);
    refused(device, file, timeline, file, BIM_ENOTTY);
    refused(device, buffer, buffer, timeline, BIM_ENOTTY);
    EXPECT(bim_device_merge(device, file, NOTHING, "", &number), BIM_ENOENT);
    EXPECT(bim_device_merge(device, file, timeline, "", &number), BIM_ENOENT);
    EXPECT(bim_device_release(device, NOTHING, 0), BIM_ENOENT);
    EXPECT(bim_device_export(device, buffer, 0, &number), BIM_EINVAL);
    EXPECT(bim_device_export(device, buffer, 4, &number), BIM_EINVAL);
    EXPECT(bim_device_import(device, buffer, file, 4), BIM_EINVAL);
    EXPECT(bim_device_import(device, buffer, NOTHING, BIM_SYNC_READ), BIM_EINVAL);
    EXPECT(bim_device_import(device, buffer, timeline, BIM_SYNC_READ), BIM_EINVAL);
    EXPECT(bim_device_test(device, buffer, BIM_BOOKKEEP + 1, &signalled), BIM_EINVAL);
    EXPECT(bim_device_test(device, buffer, -1, &signalled), BIM_EINVAL);
    EXPECT(bim_device_test(device, NOTHING, -1, &signalled), BIM_EINVAL);
    EXPECT(signalled, KEPT);
    EXPECT(number, KEPT);
    EXPECT(bim_device_merge(device, file, file, "", &merged), 0);
    EXPECT(merged, 4);
    EXPECT(bim_device_release(device, merged, 0), 0);
    EXPECT(bim_device_release(device, merged, 0), BIM_ENOENT);
    EXPECT(bim_device_status(device, merged, &signalled), BIM_ENOENT);
    EXPECT(bim_device_merge_n(device, file, file, "", 0, &merged), 0);
    EXPECT(merged, 5);
    EXPECT(bim_device_release(device, merged, 0), 0);
    EXPECT(bim_device_release(device, file, 0), 0);
    EXPECT(bim_device_release(device, buffer, 0), 0);
    EXPECT(bim_device_release(device, timeline, 0), 0);
    EXPECT(bim_device_fence(device, timeline, 5, 0, &number), BIM_ENOENT);
    EXPECT(bim_device_take_woken(device, &number, 1), 0);
    EXPECT(number, KEPT);
}

/* Takes the first woken files, as many as there is room for. The others stay. */
static void takes(bim_device *device, size_t room, const uint64_t *wanted, size_t count)
{
    uint64_t files[8] = { KEPT, KEPT, KEPT, KEPT, KEPT, KEPT, KEPT, KEPT };

    EXPECT(bim_device_take_woken(device, files, room), count);
    for (size_t i = 0; i < 8; i++)
        EXPECT(files[i], i < count ? wanted[i] : KEPT);
}

/* Increments, and expects the first point that is pending then, and how many files it woke. */
static void raises(bim_device *device, uint64_t timeline, uint32_t n, uint64_t now, uint64_t pending, uint64_t woken)
{
    bim_device_raised raised = { KEPT, KEPT };

    EXPECT(bim_device_inc(device, timeline, n, now, &raised), 0);
    EXPECT(raised.pending, pending);
    EXPECT(raised.woken, woken);
}

/* Expects the least point that an increment by n signals. */
static void is_due(bim_device *device, uint64_t timeline, uint64_t n, uint64_t wanted)
{
    uint64_t point = KEPT;

    EXPECT(bim_device_first_due(device, timeline, n, &point), 0);
    EXPECT(point, wanted);
}

static void has_fence(bim_device *device, uint64_t file, size_t index, uint64_t timeline, uint64_t value, int pending)
{
    bim_device_point fence = { KEPT, KEPT, KEPT };

    EXPECT(bim_device_fence_of(device, file, index, &fence), 0);
    EXPECT(fence.timeline, timeline);
    EXPECT(fence.value, value);
    EXPECT(fence.is_pending, pending);
}

static void woken(bim_device *device)
{
    uint64_t timeline, other, files[6], both;
    int32_t signalled = KEPT;

    EXPECT(bim_device_timeline(device, "a", &timeline), 0);
    EXPECT(bim_device_timeline(device, "b", &other), 0);
    for (uint32_t i = 0; i < 6; i++)
        EXPECT(bim_device_fence(device, timeline, 6 - i, 0, &files[i]), 0);
    EXPECT(bim_device_fence(device, other, 1, 0, &both), 0);
    EXPECT(bim_device_merge(device, both, files[0], "", &both), 0);
    EXPECT(bim_device_is_signalled(device, files[5], &signalled), 0);
    EXPECT(signalled, 0);
    takes(device, 8, NULL, 0);

    /* In order of the calls, and by rising number within one call: points 1, then 2 and 3. */
    raises(device, timeline, 1, 10, 2, 1);
    EXPECT(bim_device_is_signalled(device, files[5], &signalled), 0);
    EXPECT(signalled, 1);
    raises(device, timeline, 0, 10, 2, 0);
    raises(device, timeline, 2, 11, 4, 2);
    takes(device, 0, NULL, 0);
    takes(device, 2, (uint64_t[]){ files[5], files[3] }, 2);
    takes(device, 8, (uint64_t[]){ files[4] }, 1);
    takes(device, 8, NULL, 0);

    /* A file that is released before it is taken is left out. */
    raises(device, timeline, 3, 12, 0, 3);
    EXPECT(bim_device_release(device, files[1], 13), 0);
    takes(device, 1, (uint64_t[]){ files[0] }, 1);
    takes(device, 8, (uint64_t[]){ files[2] }, 1);

    /* A file of two timelines waits for both. A closed timeline has reached every point. */
    EXPECT(bim_device_is_signalled(device, both, &signalled), 0);
    EXPECT(signalled, 0);
    EXPECT(bim_device_release(device, other, 14), 0);
    takes(device, 8, (uint64_t[]){ both - 1, both }, 2);
    EXPECT(bim_device_release(device, timeline, 15), 0);
    takes(device, 8, NULL, 0);
}

/* Expects the information of a file of one timeline, which is at value 4, and then closed. */
static void infos(bim_device *device)
{
    uint64_t timeline, pending, reached, merged;
    bim_device_file_info info;
    bim_device_fence_info rows[3];
    char name[64];
    int32_t status = KEPT;

    EXPECT(bim_device_timeline_n(device, "gpu?", 3, &timeline), 0);
    raises(device, timeline, 4, 50, 0, 0);
    EXPECT(bim_device_fence(device, timeline, 9, 60, &pending), 0);
    EXPECT(bim_device_fence(device, timeline, 4, 61, &reached), 0);
    memset(rows, KEPT, sizeof rows);
    EXPECT(bim_device_info(device, pending, &info, rows, 3), 0);
    snprintf(name, sizeof name, "sw_sync-gpu%llu-9", (unsigned long long)timeline);
    HOLDS(strcmp(info.name, name) == 0);
    HOLDS(info.fences == 1 && info.status == BIM_IS_ACTIVE);
    HOLDS(strcmp(rows[0].timeline, "gpu") == 0 && strcmp(rows[0].driver, "sw_sync") == 0);
    HOLDS(rows[0].at == 0 && rows[0].status == BIM_IS_ACTIVE);
    HOLDS(rows[1].timeline[0] == KEPT);
    EXPECT(bim_device_info(device, reached, &info, NULL, 0), 0);
    HOLDS(info.fences == 1 && info.status == BIM_IS_SIGNALLED);
    EXPECT(bim_device_info_n(device, reached, &info, rows, 1), 0);
    HOLDS(rows[0].at == 61 && rows[0].status == BIM_IS_SIGNALLED);

    /* Closing a timeline cancels its pending fences, and doesn't change signalled ones. */
    EXPECT(bim_device_release(device, timeline, 70), 0);
    EXPECT(bim_device_status(device, pending, &status), 0);
    EXPECT(status, BIM_IS_CANCELLED);
    EXPECT(bim_device_status(device, reached, &status), 0);
    EXPECT(status, BIM_IS_SIGNALLED);
    EXPECT(bim_device_info(device, pending, &info, rows, 3), 0);
    HOLDS(info.status == BIM_IS_CANCELLED && rows[0].status == BIM_IS_CANCELLED && rows[0].at == 70);
    EXPECT(bim_device_info(device, reached, &info, rows, 3), 0);
    HOLDS(rows[0].status == BIM_IS_SIGNALLED && rows[0].at == 61);

    /* A merge of signalled files is a stub with the latest time. */
    EXPECT(bim_device_merge(device, pending, reached, "", &merged), 0);
    EXPECT(bim_device_info(device, merged, &info, rows, 3), 0);
    HOLDS(strcmp(info.name, "stub-stub0-0") == 0 && info.fences == 1 && info.status == BIM_IS_SIGNALLED);
    HOLDS(strcmp(rows[0].timeline, "stub") == 0 && strcmp(rows[0].driver, "stub") == 0);
    HOLDS(rows[0].at == 70 && rows[0].status == BIM_IS_SIGNALLED);
    EXPECT(bim_device_take_woken(device, &merged, 1), 1);
    EXPECT(merged, pending);
}

/* A file has a row for each timeline, by rising number; as many are stored as there is room for. */
static void rows_and_rooms(bim_device *device)
{
    enum { MANY = 5 };
    uint64_t timeline, file, all;
    bim_device_file_info info;
    bim_device_fence_info rows[MANY];
    char task[2] = "a", name[64];

    EXPECT(bim_device_timeline(device, task, &timeline), 0);
    EXPECT(bim_device_fence(device, timeline, 1, 0, &all), 0);
    for (int i = 1; i < MANY; i++) {
        task[0] = (char)('a' + i);
        EXPECT(bim_device_timeline(device, task, &timeline), 0);
        EXPECT(bim_device_fence(device, timeline, 1, 0, &file), 0);
        EXPECT(bim_device_merge(device, file, all, "", &all), 0);
    }
    for (size_t room = 0; room <= MANY; room++) {
        memset(rows, KEPT, sizeof rows);
        EXPECT(bim_device_info(device, all, &info, room ? rows : NULL, room), 0);
        EXPECT(info.fences, MANY);
        for (size_t i = 0; i < MANY; i++)
            EXPECT(rows[i].timeline[0], i < room ? 'a' + (int)i : KEPT);
    }
    snprintf(name, sizeof name, "dma_fence_array-unbound%llu-1", (unsigned long long)all);
    name[BIM_NAME_ROOM - 1] = '\0';
    HOLDS(strcmp(info.name, name) == 0);
    raises(device, timeline, 1, 3, 0, 1);
    EXPECT(bim_device_info(device, all, &info, rows, MANY), 0);
    HOLDS(rows[MANY - 1].status == BIM_IS_SIGNALLED && rows[MANY - 1].at == 3 && info.status == BIM_IS_ACTIVE);
    EXPECT(bim_device_take_woken(device, &file, 1), 1);
}

/* Names are cut at 31 bytes, and end at a NUL. */
static void names(bim_device *device)
{
    uint64_t timeline, file, merged;
    bim_device_file_info info;
    bim_device_fence_info row;

    EXPECT(bim_device_timeline(device, LONGEST "23", &timeline), 0);
    EXPECT(bim_device_fence(device, timeline, 1, 0, &file), 0);
    EXPECT(bim_device_info(device, file, &info, &row, 1), 0);
    HOLDS(strcmp(row.timeline, LONGEST) == 0);
    HOLDS(strcmp(info.name, "sw_sync-a2345678901234567890123") == 0);
    EXPECT(bim_device_merge(device, file, file, LONGEST "2", &merged), 0);
    EXPECT(bim_device_info(device, merged, &info, NULL, 0), 0);
    HOLDS(strcmp(info.name, LONGEST) == 0);
    EXPECT(bim_device_merge(device, file, file, LONGEST, &merged), 0);
    EXPECT(bim_device_info(device, merged, &info, NULL, 0), 0);
    HOLDS(strcmp(info.name, LONGEST) == 0);
    EXPECT(bim_device_merge_n(device, file, file, "ab\0cd", 5, &merged), 0);
    EXPECT(bim_device_info(device, merged, &info, NULL, 0), 0);
    HOLDS(strcmp(info.name, "ab") == 0);
    EXPECT(bim_device_merge_n(device, file, file, "frame?", 5, &merged), 0);
    EXPECT(bim_device_info(device, merged, &info, NULL, 0), 0);
    HOLDS(strcmp(info.name, "frame") == 0);
}

/* 32-bit points wrap: each stands for the 64-bit point nearest to the value. 64-bit values don't wrap. */
static void points(bim_device *device)
{
    uint64_t timeline, file, before, number = KEPT;
    int32_t signalled;

    EXPECT(bim_device_timeline(device, "w", &timeline), 0);
    raises(device, timeline, UINT32_MAX, 0, 0, 0);
    EXPECT(bim_device_fence(device, timeline, 1, 0, &file), 0);
    EXPECT(bim_device_fence(device, timeline, UINT32_MAX - 1, 0, &before), 0);
    EXPECT(bim_device_is_signalled(device, before, &signalled), 0);
    EXPECT(signalled, 1);
    raises(device, timeline, 1, 0, UINT32_MAX + 2ull, 0);
    EXPECT(bim_device_is_signalled(device, file, &signalled), 0);
    EXPECT(signalled, 0);
    raises(device, timeline, 1, 0, 0, 1);
    EXPECT(bim_device_is_signalled(device, file, &signalled), 0);
    EXPECT(signalled, 1);
    EXPECT(bim_device_fence(device, timeline, 1 + (1u << 31), 0, &before), 0);
    EXPECT(bim_device_is_signalled(device, before, &signalled), 0);
    EXPECT(signalled, 1);
    EXPECT(bim_device_fence(device, timeline, 1u << 31, 0, &before), 0);
    EXPECT(bim_device_is_signalled(device, before, &signalled), 0);
    EXPECT(signalled, 0);
    EXPECT(bim_device_take_woken(device, &number, 1), 1);
    EXPECT(number, file);
    EXPECT(bim_device_release(device, timeline, 0), 0);
    EXPECT(bim_device_take_woken(device, &number, 1), 1);
    EXPECT(number, before);
}

/* A read waits for writers; a write waits for readers too. */
static void buffers(bim_device *device)
{
    uint64_t timeline, write, read, buffer, idle, reads, writes;
    bim_device_file_info info;
    bim_device_fence_info row;
    int32_t signalled = KEPT;

    EXPECT(bim_device_timeline(device, "a", &timeline), 0);
    EXPECT(bim_device_buffer(device, 30, &buffer), 0);
    EXPECT(bim_device_export(device, buffer, BIM_SYNC_RW, &idle), 0);
    EXPECT(bim_device_info(device, idle, &info, &row, 1), 0);
    HOLDS(info.status == BIM_IS_SIGNALLED && row.at == 30);
    EXPECT(bim_device_fence(device, timeline, 1, 0, &write), 0);
    EXPECT(bim_device_fence(device, timeline, 2, 0, &read), 0);
    EXPECT(bim_device_import(device, buffer, write, BIM_SYNC_WRITE), 0);
    EXPECT(bim_device_import(device, buffer, read, BIM_SYNC_READ), 0);
    EXPECT(bim_device_export(device, buffer, BIM_SYNC_READ, &reads), 0);
    EXPECT(bim_device_export(device, buffer, BIM_SYNC_WRITE, &writes), 0);
    EXPECT(bim_device_test(device, buffer, BIM_KERNEL, &signalled), 0);
    EXPECT(signalled, 1);
    EXPECT(bim_device_test(device, buffer, BIM_WRITE, &signalled), 0);
    EXPECT(signalled, 0);
    raises(device, timeline, 1, 40, 2, 2);
    takes(device, 8, (uint64_t[]){ write, reads }, 2);
    EXPECT(bim_device_test(device, buffer, BIM_WRITE, &signalled), 0);
    EXPECT(signalled, 1);
    EXPECT(bim_device_test(device, buffer, BIM_READ, &signalled), 0);
    EXPECT(signalled, 0);
    EXPECT(bim_device_test(device, buffer, BIM_BOOKKEEP, &signalled), 0);
    EXPECT(signalled, 0);
    EXPECT(bim_device_release(device, timeline, 41), 0);
    EXPECT(bim_device_test(device, buffer, BIM_BOOKKEEP, &signalled), 0);
    EXPECT(signalled, 1);
    takes(device, 8, (uint64_t[]){ read, writes }, 2);
}

/* bim_device_first_due and bim_device_fence_of report what the calls then do. */
static void looks(bim_device *device)
{
    uint64_t timeline, other, files[3], both, last, value = KEPT, point = KEPT;
    bim_device_point fence = { KEPT, KEPT, KEPT };

    EXPECT(bim_device_timeline(device, "a", &timeline), 0);
    EXPECT(bim_device_timeline(device, "b", &other), 0);
    is_due(device, timeline, UINT64_MAX, 0);
    raises(device, timeline, 4, 0, 0, 0);
    EXPECT(bim_device_fence(device, timeline, 9, 1, &files[0]), 0);
    EXPECT(bim_device_fence(device, timeline, 7, 1, &files[1]), 0);
    EXPECT(bim_device_fence(device, other, 3, 1, &files[2]), 0);
    EXPECT(bim_device_value(device, timeline, &value), 0);
    EXPECT(value, 4);
    is_due(device, timeline, 0, 0);
    is_due(device, timeline, 2, 0);
    is_due(device, timeline, 3, 7);
    is_due(device, timeline, UINT64_MAX, 7);
    is_due(device, other, 2, 0);
    is_due(device, other, 3, 3);
    EXPECT(bim_device_merge(device, files[2], files[1], "m", &both), 0);
    has_fence(device, both, 0, timeline, 7, 1);
    has_fence(device, both, 1, other, 3, 1);
    EXPECT(bim_device_fence_of(device, both, 2, &fence), BIM_EINVAL);
    EXPECT(bim_device_fence_of(device, both, SIZE_MAX, &fence), BIM_EINVAL);
    raises(device, timeline, 3, 2, 9, 1);
    EXPECT(bim_device_value(device, timeline, &value), 0);
    EXPECT(value, 7);
    has_fence(device, both, 0, timeline, 7, 0);
    is_due(device, timeline, 1, 0);
    is_due(device, timeline, 2, 9);
    EXPECT(bim_device_release(device, files[0], 3), 0);
    is_due(device, timeline, UINT64_MAX, 0);
    EXPECT(bim_device_release(device, other, 4), 0);
    EXPECT(bim_device_first_due(device, other, 3, &point), BIM_ENOENT);
    EXPECT(point, KEPT);
    has_fence(device, both, 1, other, 3, 0);
    EXPECT(bim_device_fence(device, timeline, UINT32_MAX, 5, &last), 0);
    has_fence(device, last, 0, timeline, 0, 0);
    EXPECT(bim_device_merge(device, last, last, "stub", &last), 0);
    EXPECT(bim_device_fence_of(device, last, 0, &fence), BIM_EINVAL);
    HOLDS(fence.timeline == KEPT && fence.value == KEPT && fence.is_pending == KEPT);
    takes(device, 8, (uint64_t[]){ files[1], files[2], both }, 3);
}

/* Only memory limits the number of objects. A woken file that is never taken isn't lost, and a released one can't be
 * taken any more. */
static void many(bim_device *device)
{
    enum { MANY = 5000 };
    static uint64_t files[MANY], taken[MANY];
    uint64_t timeline, first, buffer, last = 0;
    size_t count = 0, more;
    bim_device_raised raised;

    EXPECT(bim_device_timeline(device, "a", &first), 0);
    for (uint32_t i = 0; i < MANY; i++) {
        EXPECT(bim_device_timeline(device, "b", &timeline), 0);
        EXPECT(bim_device_buffer(device, 0, &buffer), 0);
        EXPECT(bim_device_fence(device, first, i + 1, 0, &files[i]), 0);
        HOLDS(files[i] > last);
        last = files[i];
        EXPECT(bim_device_inc(device, first, i % 3 == 0, 0, &raised), 0);
        EXPECT(raised.woken, i % 3 == 0);
    }
    raises(device, first, MANY, 0, 0, MANY - (MANY + 2) / 3);
    for (size_t i = 0; i < MANY; i += 2)
        EXPECT(bim_device_release(device, files[i], 0), 0);
    while ((more = bim_device_take_woken(device, taken + count, 100)) > 0)
        count += more;
    EXPECT(count, MANY / 2);
    for (size_t i = 0; i < count; i++)
        EXPECT(taken[i], files[2 * i + 1]);
}

int main(void)
{
    bim_device device = BIM_DEVICE_INIT, moved;

    errnos();
    closed_device();
    EXPECT(bim_device_open(&device), 0);
    moved = device;
    EXPECT(bim_device_open(&device), BIM_EEXIST);
    HOLDS(device.at == moved.at);
    numbers(&device);
    woken(&device);
    infos(&device);
    rows_and_rooms(&device);
    names(&device);
    points(&device);
    buffers(&device);
    looks(&device);
    many(&device);
    bim_device_close(&device);
    HOLDS(device.at == NULL);
    bim_device_close(&device);
    EXPECT(bim_device_open(&device), 0);
    refused(&device, 1, 1, 1, BIM_ENOENT);
    bim_device_close(&device);
    return report("device");
}
