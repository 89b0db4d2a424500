/* A main loop on poll(2): a worker thread increments a timeline and then writes to an eventfd, and the loop takes the
 * cookies of the frames that the increment signalled.
 *
 * cc -pthread eventfd.c $(pkg-config --cflags --libs bimphlai) -o eventfd
 */
#include <bimphlai.h>
#include <inttypes.h>
#include <poll.h>
#include <pthread.h>
#include <stdio.h>
#include <stdlib.h>
#include <sys/eventfd.h>
#include <unistd.h>

enum { FRAMES = 3 };

/* A desk that threads share under a lock, and the eventfd that wakes the loop after a change. */
struct service {
    bim_desk desk;
    pthread_mutex_t lock;
    int wake;
};

static void fail(const char *what)
{
    perror(what);
    exit(1);
}

/* Ends the program if a call is refused. */
static void check(int refusal, const char *call)
{
    if (refusal == BIM_OK)
        return;
    fprintf(stderr, "%s: refused with %d %s\n", call, refusal, bim_refusal_name(refusal));
    exit(1);
}
#define CHECK(call) check(call, #call)

static void advance(struct service *service, const char *timeline)
{
    const uint64_t one = 1;
    uint64_t value;

    pthread_mutex_lock(&service->lock);
    CHECK(bim_inc(&service->desk, timeline, 1, &value));
    pthread_mutex_unlock(&service->lock);
    if (write(service->wake, &one, sizeof one) != sizeof one)
        fail("write");
}

/* Takes fired cookies. Returns how many. */
static size_t take(struct service *service, uint64_t *cookies, size_t room)
{
    pthread_mutex_lock(&service->lock);
    size_t count = bim_take_fired(&service->desk, cookies, room);
    pthread_mutex_unlock(&service->lock);
    return count;
}

static void *gpu(void *given)
{
    for (int frame = 0; frame < FRAMES; frame++) {
        usleep(1000);
        advance(given, "gpu");
    }
    return NULL;
}

/* Watches each frame of the timeline; its cookie is its number. The files are closed again, since a watch doesn't need
 * them. */
static void watch_frames(bim_desk *desk)
{
    for (uint64_t frame = 1; frame <= FRAMES; frame++) {
        CHECK(bim_fence(desk, "frame", "gpu", frame));
        CHECK(bim_watch(desk, "frame", frame));
        CHECK(bim_close(desk, "frame"));
    }
}

static void loop(struct service *service)
{
    struct pollfd events = { .fd = service->wake, .events = POLLIN };
    uint64_t wakes, cookies[8];
    size_t shown = 0, count;

    while (shown < FRAMES) {
        if (poll(&events, 1, -1) < 0)
            fail("poll");
        if (read(service->wake, &wakes, sizeof wakes) != sizeof wakes)
            fail("read");
        while ((count = take(service, cookies, sizeof cookies / sizeof cookies[0])) > 0) {
            for (size_t i = 0; i < count; i++)
                printf("frame %" PRIu64 " is shown\n", cookies[i]);
            shown += count;
        }
    }
}

int main(void)
{
    struct service service = { .desk = BIM_DESK_INIT, .lock = PTHREAD_MUTEX_INITIALIZER };
    uint64_t context;
    pthread_t worker;

    service.wake = eventfd(0, EFD_CLOEXEC);
    if (service.wake < 0)
        fail("eventfd");
    CHECK(bim_desk_open(&service.desk));
    CHECK(bim_timeline(&service.desk, "gpu", &context));
    watch_frames(&service.desk);
    if (pthread_create(&worker, NULL, gpu, &service)) {
        fputs("no thread can be started\n", stderr);
        return 1;
    }
    loop(&service);
    pthread_join(worker, NULL);

    bim_desk_close(&service.desk);
    close(service.wake);
    return 0;
}
