/* Closings: releases objects that no process holds any more. */
#include "calls.h"
#include "log.h"
#include "registry.h"

#include <errno.h>
#include <fcntl.h>
#include <stdio.h>
#include <stdlib.h>
#include <string.h>
#include <time.h>

/* How many endpoints are polled at once; how often an ending process is checked, once a millisecond; and the flag
 * PF_EXITING in /proc/N/stat. */
enum { AT_ONCE = 64, LOOKS = 200, IS_ENDING = 4 };

/* How long a closing waits for a thread that has just incremented: to take its answer, and then to read the points that
 * it will read next. */
enum { NANOSECONDS_TO_TAKE = 10000000, NANOSECONDS_TO_GO_ON = 500000 };

static void note_teller(struct object *object, bool is_told)
{
    object->is_told |= is_told;
    if (object->kind == TIMELINE)
        object->timeline->ends_with_process = !object->is_told;
}

void registry_look(struct registry *registry, struct object *object, bool is_told)
{
    /* The closing may have been seen before the process reported it. */
    if (object->is_closing)
        note_teller(object, is_told);
    if (object->is_closing || object->endpoint < 0 || !endpoint_is_alone(object->endpoint))
        return;
    object->is_closing = true;
    object->next_closing = registry->closing;
    registry->closing = object;
    note_teller(object, is_told);
}

/* Attributes the close, in the trace, to the process that reported it, or else to the object's maker. */
static void set_closer(struct registry *registry, const struct object *object, const struct who *teller)
{
    if (!registry->trace)
        return;
    registry->trace->who = object->is_told ? *teller : object->maker;
    registry->trace->now = registry->now;
}

/* Releases a closed object. Returns ENOMEM for a timeline that can't be released yet. */
static int let_go(struct registry *registry, struct object *object, const struct who *teller)
{
    uint64_t value = 0;
    int error;

    if (object->kind == TIMELINE)
        bim_device_value(&registry->device, object->number, &value);
    error = bim_device_release(&registry->device, object->number, registry->now);
    if (error)
        return error;
    set_closer(registry, object, teller);
    registry->counts[object->kind]--;
    if (object->kind == TIMELINE) {
        log_add(&(struct log_record){ .time = registry->now, .kind = LOG_SHUT, .object = { object->inode } });
        record_close(object->timeline, value, registry->now, registry->trace);
        registry_wake(registry);
    } else if (object->kind == SYNC_FILE) {
        record_drop(&object->fences, !object->is_told, registry->trace);
    } else {
        buffer_drop(registry, object);
    }
    registry_forget(registry, object);
    return 0;
}

/* Releases the closed timelines, or all other closed objects. Objects that can't be released yet stay in the list. */
static void settle(struct registry *registry, bool timelines, const struct who *teller)
{
    struct object *left = registry->closing;

    registry->closing = NULL;
    while (left) {
        struct object *object = left;

        left = object->next_closing;
        if ((object->kind == TIMELINE) == timelines && let_go(registry, object, teller) == 0)
            continue;
        object->next_closing = registry->closing;
        registry->closing = object;
    }
}

/* Returns whether a process is ending. It may have closed only some of its descriptors. */
static bool is_ending(int process)
{
    char path[32], text[512] = { 0 }, state = 'X';
    const char *after_name;
    unsigned flags = 0;
    int file;

    snprintf(path, sizeof path, "/proc/%d/stat", process);
    file = open(path, O_RDONLY | O_CLOEXEC);
    if (file < 0)
        return false;
    if (call_read(file, text, sizeof text - 1) > 0 && (after_name = strrchr(text, ')')))
        sscanf(after_name, ") %c %*d %*d %*d %*d %*d %u", &state, &flags);
    call_close(file);
    return state != 'Z' && state != 'X' && flags & IS_ENDING;
}

static void look_at_all(struct registry *registry, bool timelines);

/* In a trace, waits until ending processes have closed all their descriptors, which they do one by one, since only all
 * closings together show what a process leaves. */
static void await_ends(struct registry *registry)
{
    int looks = 0;

    for (const struct object *object = registry->closing; object; object = object->next_closing)
        for (; !object->is_told && looks < LOOKS && is_ending(object->maker.thread); looks++)
            call_poll(NULL, 0, 1);
    if (looks == 0)
        return;
    look_at_all(registry, false);
    look_at_all(registry, true);
}

/* Returns whether any closing cancels a point. */
static bool cancels(struct registry *registry)
{
    for (const struct object *object = registry->closing; object; object = object->next_closing)
        if (registry_would_signal(registry, object->number, UINT64_MAX))
            return true;
    return false;
}

/* Sleeps, while other threads run. */
static void sleep_for(uint64_t nanoseconds)
{
    struct timespec time = { .tv_nsec = nanoseconds };

    syscall(SYS_nanosleep, &time, NULL);
}

/* In Linux, a thread that increments continues at once, and reads other points long before a thread that it woke can
 * close the timeline. Here its answer is still under way then, so the closing waits for it. */
static void let_go_on(struct registry *registry)
{
    uint64_t now = registry_now(), last = now + NANOSECONDS_TO_TAKE;
    uint64_t until = registry->signalled_at + NANOSECONDS_TO_GO_ON;

    if (registry->signalled_at == 0)
        return;
    for (;; now = registry_now()) {
        if (now < last && registry->host->owes_answer(registry))
            until = now + NANOSECONDS_TO_GO_ON;
        if (now >= until)
            break;
        sleep_for(until - now);
    }
    registry->signalled_at = 0;
    registry->now = now;
}

/* Releases files first: a timeline that is closed with them then doesn't cancel points that only they held. */
void registry_settle(struct registry *registry)
{
    struct who teller = { .task = "" };

    if (!registry->closing)
        return;
    if (registry->trace) {
        await_ends(registry);
        teller = registry->trace->who;
    }
    registry->now = registry_now();
    settle(registry, false, &teller);
    if (cancels(registry))
        let_go_on(registry);
    settle(registry, true, &teller);
    buffers_retry(registry);
    trace_flush(registry->trace);
}

void registry_place_all(struct registry *registry)
{
    for (size_t i = 0; i < registry->by_number.room; i++) {
        struct object *object = registry->by_number.entries[i].value;

        if (object && object->endpoint >= 0)
            object->endpoint = registry->host->place(object->endpoint);
        if (object && object->kind == BUFFER)
            parts_place(&object->buffer.memory, registry->host->place);
    }
    if (registry->trace)
        registry->trace->file = registry->host->place(registry->trace->file);
}

/* Looks at all timelines, or at all other objects. */
static void look_at_all(struct registry *registry, bool timelines)
{
    for (size_t i = 0; i < registry->by_number.room; i++) {
        struct object *object = registry->by_number.entries[i].value;

        if (object && (object->kind == TIMELINE) == timelines)
            registry_look(registry, object, false);
    }
}

void registry_sweep(struct registry *registry)
{
    look_at_all(registry, false);
    look_at_all(registry, true);
    registry_settle(registry);
}

/* Fills in the endpoints of open timelines, starting at `timeline`. Returns the timeline where the next batch starts. To
 * ask the device which of them have a pending point takes longer than to poll them all. */
static const struct timeline *endpoints_of(struct registry *registry, const struct timeline *timeline,
                                           struct pollfd *endpoints, nfds_t *count)
{
    for (*count = 0; timeline && *count < AT_ONCE; timeline = timeline->after) {
        const struct object *object = map_find(&registry->by_number, timeline->number);

        if (object)
            endpoints[(*count)++] = (struct pollfd){ object->endpoint, 0, 0 };
    }
    return timeline;
}

bool registry_sweep_timelines(struct registry *registry)
{
    struct pollfd endpoints[AT_ONCE];
    const struct timeline *from = registry->timelines.first;
    bool any = false;
    nfds_t count;

    while (from && !any) {
        from = endpoints_of(registry, from, endpoints, &count);
        any = count > 0 && call_poll(endpoints, count, 0) > 0;
    }
    if (any)
        registry_sweep(registry);
    return any;
}

static void free_one(struct registry *registry, struct object *object)
{
    if (object->kind == SYNC_FILE)
        record_drop(&object->fences, true, NULL);
    if (object->kind == BUFFER)
        buffer_drop(registry, object);
    registry_forget(registry, object);
}

/* Freeing an object moves another one into its slot. */
static void free_all(struct registry *registry, bool timelines)
{
    for (size_t i = 0; i < registry->by_number.room;) {
        struct object *object = registry->by_number.entries[i].value;

        if (object && object->kind != READINESS && (object->kind == TIMELINE) == timelines)
            free_one(registry, object);
        else
            i++;
    }
}

void registry_close(struct registry *registry)
{
    free_all(registry, false);
    free_all(registry, true);
    map_free(&registry->by_inode);
    map_free(&registry->by_number);
    free(registry->rows);
    bim_device_close(&registry->device);
    page_close(registry->page);
    trace_end(registry->trace, registry_now());
    trace_close(registry->trace);
}
