/* SPDX-License-Identifier: MIT OR Apache-2.0
 *
 * A frame is ready once two engines are done. The test knows only the kernel's calls; where the kernel has no sw_sync, it is
 * skipped. With the word "hang" the copy engine never ends, and nobody waits for it. */
#include <fcntl.h>
#include <linux/sync_file.h>
#include <linux/types.h>
#include <poll.h>
#include <stdio.h>
#include <string.h>
#include <sys/ioctl.h>
#include <unistd.h>

struct sw_sync_create_fence_data {
    __u32 value;
    char name[32];
    __s32 fence;
};
#define SW_SYNC_IOC_CREATE_FENCE _IOWR('W', 0, struct sw_sync_create_fence_data)
#define SW_SYNC_IOC_INC _IOW('W', 1, __u32)

enum { PASSED = 0, FAILED = 1, SKIPPED = 77 };

static int fence(int timeline, __u32 point, const char *name)
{
    struct sw_sync_create_fence_data data = { .value = point };

    strncpy(data.name, name, sizeof data.name - 1);
    return ioctl(timeline, SW_SYNC_IOC_CREATE_FENCE, &data) ? -1 : data.fence;
}

static int merge(int a, int b)
{
    struct sync_merge_data data = { .name = "frame", .fd2 = b };

    return ioctl(a, SYNC_IOC_MERGE, &data) ? -1 : data.fence;
}

static int increment(int timeline)
{
    __u32 one = 1;

    return ioctl(timeline, SW_SYNC_IOC_INC, &one);
}

static int is_ready(int file)
{
    struct pollfd asked = { .fd = file, .events = POLLIN };

    return poll(&asked, 1, 0);
}

int main(int count, char **words)
{
    int hangs = count > 1 && !strcmp(words[1], "hang");
    int gpu = open("/sys/kernel/debug/sync/sw_sync", O_RDWR), copy = open("/sys/kernel/debug/sync/sw_sync", O_RDWR);
    int drawn, copied, frame;

    if (gpu < 0 || copy < 0)
        return SKIPPED;
    drawn = fence(gpu, 1, "drawn");
    copied = fence(copy, 1, "copied");
    frame = merge(drawn, copied);
    if (frame < 0 || is_ready(frame) || increment(gpu) || is_ready(drawn) != 1 || is_ready(frame))
        return FAILED;
    if (hangs)
        return PASSED;
    if (increment(copy) || is_ready(frame) != 1)
        return FAILED;
    puts("the frame is ready");
    return PASSED;
}
