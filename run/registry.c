#define _GNU_SOURCE
#include "registry.h"

#include "calls.h"

#include <errno.h>
#include <stdlib.h>
#include <string.h>
#include <time.h>

enum { WOKEN_ROOM = 64 };

uint64_t registry_now(void)
{
    struct timespec now;

    clock_gettime(CLOCK_MONOTONIC, &now);
    return now.tv_sec * 1000000000ull + now.tv_nsec;
}

bool registry_would_signal(struct registry *registry, uint64_t timeline, uint64_t n)
{
    uint64_t point = 0;

    return bim_device_first_due(&registry->device, timeline, n, &point) == 0 && point > 0;
}

int registry_fences(struct registry *registry, uint64_t file, struct fences *fences)
{
    bim_device_point point;
    size_t count = 0;
    int error;

    while (bim_device_fence_of(&registry->device, file, count, &point) == 0)
        count++;
    error = record_room(fences, count);
    for (size_t i = 0; !error && i < count; i++) {
        const struct object *object;

        bim_device_fence_of(&registry->device, file, i, &point);
        object = map_find(&registry->by_number, point.timeline);
        if (object)
            record_hold(fences, object->timeline, point.value);
    }
    return error;
}

/* Opens everything but the device. Returns 0 or an errno. */
static int open_page_and_trace(struct registry *registry, const char *trace_path)
{
    int error;

    registry->page = page_new(&registry->page_memory);
    if (!registry->page)
        return errno;
    registry->trace = trace_path ? trace_open(trace_path) : NULL;
    if (registry->trace)
        registry->trace->file = registry->host->place(registry->trace->file);
    if (registry->trace || !trace_path)
        return 0;
    error = errno;
    page_close(registry->page);
    call_close(registry->page_memory);
    return error;
}

int registry_open(struct registry *registry, const struct host *host, const char *trace_path)
{
    int error;

    *registry = (struct registry){ .host = host, .endpoints = -1 };
    error = bim_device_open(&registry->device);
    if (error)
        return error;
    error = open_page_and_trace(registry, trace_path);
    if (error)
        bim_device_close(&registry->device);
    return error;
}

struct object *registry_find(const struct registry *registry, uint64_t inode)
{
    return map_find(&registry->by_inode, inode);
}

/* Frees an object that has no number, or whose number is released. */
void registry_forget(struct registry *registry, struct object *object)
{
    if (object->number)
        map_remove(&registry->by_number, object->number);
    if (object->kind == TIMELINE && object->timeline)
        record_forget(object->timeline);
    if (object->inode)
        map_remove(&registry->by_inode, object->inode);
    if (object->endpoint >= 0)
        call_close(object->endpoint);
    free(object);
}

static int make_endpoints(enum kind kind, struct endpoints *endpoints)
{
    switch (kind) {
    case BUFFER: return endpoints_sockets(endpoints);
    case TIMELINE: return endpoints_pipe(endpoints, BIM_TIMELINE_MARK);
    default: return endpoints_pipe(endpoints, BIM_FILE_MARK);
    }
}

static int make_placed_endpoints(struct registry *registry, enum kind kind, struct endpoints *endpoints)
{
    int error;

    registry->host->begin_files();
    error = make_endpoints(kind, endpoints);
    if (!error && registry->host->may_give(endpoints->theirs)) {
        endpoints->ours = registry->host->place(endpoints->ours);
    } else if (!error) {
        endpoints_close(endpoints);
        error = EMFILE;
    }
    registry->host->end_files();
    if (error == EMFILE && registry->host->make_room(registry))
        return make_placed_endpoints(registry, kind, endpoints);
    return error;
}

static void set_maker(struct object *object, const struct bim_request *request)
{
    memcpy(object->maker.task, request->task, sizeof object->maker.task);
    object->maker.task[BIM_TASK_ROOM - 1] = 0;
    object->maker.thread = request->thread;
}

/* Makes an object and its descriptors, without a number yet. */
int registry_begin(struct registry *registry, enum kind kind, const struct bim_request *request, struct object **made,
                   int *gives)
{
    struct object *object = calloc(1, sizeof *object);
    struct endpoints endpoints;
    int error;

    if (!object)
        return ENOMEM;
    object->kind = kind;
    object->endpoint = -1;
    set_maker(object, request);
    error = make_placed_endpoints(registry, kind, &endpoints);
    if (error) {
        free(object);
        return error;
    }
    object->endpoint = endpoints.ours;
    error = map_add(&registry->by_inode, endpoints.inode, object);
    if (error) {
        call_close(endpoints.theirs);
        registry_forget(registry, object);
        return error;
    }
    object->inode = endpoints.inode;
    *made = object;
    *gives = endpoints.theirs;
    return 0;
}

static int watch_endpoint(const struct registry *registry, const struct object *object, uint64_t number)
{
    struct epoll_event event = { .events = EPOLLET, .data.u64 = number };

    if (registry->endpoints < 0)
        return 0;
    return call_epoll_ctl(registry->endpoints, EPOLL_CTL_ADD, object->endpoint, &event) ? ENOMEM : 0;
}

/* Keeps an object that has its number, or undoes registry_begin after an error. */
int registry_finish(struct registry *registry, struct object *object, int error, int *gives)
{
    uint64_t number = object->number;

    object->number = 0;
    if (!error)
        error = map_add(&registry->by_number, number, object);
    if (!error)
        error = watch_endpoint(registry, object, number);
    if (!error)
        object->number = number;
    else if (number)
        map_remove(&registry->by_number, number);
    if (!error) {
        registry->counts[object->kind]++;
        return 0;
    }
    if (number)
        bim_device_release(&registry->device, number, registry->now);
    call_close(*gives);
    *gives = -1;
    registry_forget(registry, object);
    return error;
}

static void wake_one(struct registry *registry, struct object *object)
{
    if (object->kind == SYNC_FILE) {
        endpoint_signal(object->endpoint);
        if (object->fences.array)
            trace_event(registry->trace, "signaled", object->fences.array);
    } else if (object->kind == READINESS) {
        buffer_is_ready(object->readiness.of, object->readiness.access);
    }
}

static void wake_each(struct registry *registry, const uint64_t *numbers, size_t count)
{
    for (size_t i = 0; i < count; i++) {
        struct object *object = map_find(&registry->by_number, numbers[i]);

        if (object)
            wake_one(registry, object);
    }
}

/* Wakes the polls of all files and buffers that the device has signalled. */
void registry_wake(struct registry *registry)
{
    uint64_t woken[WOKEN_ROOM];
    size_t count = bim_device_take_woken(&registry->device, woken, WOKEN_ROOM);

    if (count == 0)
        return;
    registry->host->begin_writes();
    wake_each(registry, woken, count);
    while (count == WOKEN_ROOM) {
        count = bim_device_take_woken(&registry->device, woken, WOKEN_ROOM);
        wake_each(registry, woken, count);
    }
    registry->host->end_writes();
}
