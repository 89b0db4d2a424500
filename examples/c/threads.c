/* Two threads share a device under a lock of their own: one draws frames and advances the timeline, and the other sleeps
 * until the fence of the last frame has signalled.
 *
 * cc -pthread threads.c $(pkg-config --cflags --libs bimphlai) -o threads
 */
#include <bimphlai.h>
#include <inttypes.h>
#include <pthread.h>
#include <stdio.h>
#include <stdlib.h>
#include <string.h>

enum { FRAMES = 1000 };

/* The lock is held around each call of the device. */
static pthread_mutex_t lock = PTHREAD_MUTEX_INITIALIZER;
static pthread_cond_t some_signalled = PTHREAD_COND_INITIALIZER;
static bim_device device = BIM_DEVICE_INIT;
static uint64_t timeline, last;

/* Ends the program if a call is refused. */
static void check(int error, const char *call)
{
    if (error == 0)
        return;
    fprintf(stderr, "%s: %s\n", call, strerror(error));
    exit(1);
}
#define CHECK(call) check(call, #call)

static void *render(void *unused)
{
    bim_device_raised raised;

    for (int frame = 1; frame <= FRAMES; frame++) {
        pthread_mutex_lock(&lock);
        CHECK(bim_device_inc(&device, timeline, 1, (uint64_t)frame, &raised));
        if (raised.woken > 0)
            pthread_cond_broadcast(&some_signalled);
        pthread_mutex_unlock(&lock);
    }
    return unused;
}

static void *display(void *unused)
{
    int32_t signalled;

    pthread_mutex_lock(&lock);
    for (;;) {
        CHECK(bim_device_is_signalled(&device, last, &signalled));
        if (signalled)
            break;
        pthread_cond_wait(&some_signalled, &lock);
    }
    pthread_mutex_unlock(&lock);
    puts("the last frame is drawn");
    return unused;
}

int main(void)
{
    pthread_t renderer, displayer;
    uint64_t value;

    CHECK(bim_device_open(&device));
    CHECK(bim_device_timeline(&device, "gpu", &timeline));
    CHECK(bim_device_fence(&device, timeline, FRAMES, 0, &last));
    if (pthread_create(&renderer, NULL, render, NULL) || pthread_create(&displayer, NULL, display, NULL)) {
        fputs("no thread can be started\n", stderr);
        return 1;
    }
    pthread_join(renderer, NULL);
    pthread_join(displayer, NULL);

    CHECK(bim_device_value(&device, timeline, &value));
    printf("the timeline is at %" PRIu64 "\n", value);
    bim_device_close(&device);
    return 0;
}
