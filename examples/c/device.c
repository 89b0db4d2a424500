/* Frames on a device: each frame of a client has a fence of its own. Signalled frames are shown and released, so memory
 * use doesn't grow with the number of frames.
 *
 * cc device.c $(pkg-config --cflags --libs bimphlai) -o device
 */
#include <bimphlai.h>
#include <inttypes.h>
#include <stdio.h>
#include <stdlib.h>
#include <string.h>

enum { FRAMES = 3 };

/* Ends the program if a call is refused. */
static void check(int error, const char *call)
{
    if (error == 0)
        return;
    fprintf(stderr, "%s: %s\n", call, strerror(error));
    exit(1);
}
#define CHECK(call) check(call, #call)

/* Shows the frames that have signalled, and releases their files. */
static void show(bim_device *device, uint64_t now)
{
    bim_device_file_info info;
    bim_device_fence_info fence;
    uint64_t files[2];
    size_t count;

    while ((count = bim_device_take_woken(device, files, 2)) > 0) {
        for (size_t i = 0; i < count; i++) {
            CHECK(bim_device_info(device, files[i], &info, &fence, 1));
            printf("%s has status %" PRId32 " since %" PRIu64 "\n", info.name, info.status, fence.at);
            CHECK(bim_device_release(device, files[i], now));
        }
    }
}

int main(void)
{
    bim_device device = BIM_DEVICE_INIT;
    bim_device_raised raised;
    uint64_t timeline, file;

    CHECK(bim_device_open(&device));
    CHECK(bim_device_timeline(&device, "client", &timeline));
    for (uint32_t frame = 1; frame <= FRAMES; frame++)
        CHECK(bim_device_fence(&device, timeline, frame, 10, &file));

    /* The renderer finishes the jobs of two frames. */
    CHECK(bim_device_inc(&device, timeline, 2, 20, &raised));
    show(&device, 21);

    /* The client is killed before the third is finished. */
    CHECK(bim_device_release(&device, timeline, 30));
    show(&device, 31);

    bim_device_close(&device);
    return 0;
}
