#include "record.h"

#include <errno.h>
#include <stdlib.h>
#include <string.h>

struct timeline *record_timeline(struct timelines *all, uint64_t number, const char *name, size_t length)
{
    struct timeline *timeline = calloc(1, sizeof *timeline);

    if (!timeline)
        return NULL;
    timeline->all = all;
    timeline->number = number;
    memcpy(timeline->name, name, length);
    timeline->before = all->last;
    *(timeline->before ? &timeline->before->after : &all->first) = timeline;
    all->last = timeline;
    return timeline;
}

static void free_if_unused(struct timeline *timeline)
{
    if (!timeline->is_closed || timeline->fences > 0)
        return;
    *(timeline->before ? &timeline->before->after : &timeline->all->first) = timeline->after;
    *(timeline->after ? &timeline->after->before : &timeline->all->last) = timeline->before;
    free(timeline);
}

void record_forget(struct timeline *timeline)
{
    timeline->is_closed = true;
    free_if_unused(timeline);
}

static bool is_pending(const struct fence *fence)
{
    return fence->timeline && fence->state == PENDING;
}

/* Removes a fence from its timeline's list, if it is there. */
static void unlink_fence(struct fence *fence)
{
    struct timeline *timeline = fence->timeline;

    if (fence->state == SIGNALLED)
        return;
    *(fence->before ? &fence->before->next : &timeline->first) = fence->next;
    *(fence->next ? &fence->next->before : &timeline->last) = fence->before;
    fence->state = SIGNALLED;
}

static void free_fence(struct fence *fence)
{
    struct timeline *timeline = fence->timeline;

    free(fence);
    timeline->fences--;
    free_if_unused(timeline);
}

static void link_after(struct timeline *timeline, struct fence *before, struct fence *fence)
{
    fence->before = before;
    fence->next = before ? before->next : timeline->first;
    *(before ? &before->next : &timeline->first) = fence;
    *(fence->next ? &fence->next->before : &timeline->last) = fence;
}

static struct fence *new_fence(struct timeline *timeline, uint32_t seqno, uint64_t value)
{
    struct fence *fence = calloc(1, sizeof *fence);

    if (!fence)
        return NULL;
    fence->timeline = timeline;
    timeline->fences++;
    fence->context = timeline->number;
    fence->seqno = seqno;
    fence->value = value;
    fence->driver = "sw_sync";
    memcpy(fence->timeline_name, timeline->name, sizeof fence->timeline_name);
    return fence;
}

/* Returns whether a point is nearer to a timeline's first fence than to its last. */
static bool is_early(const struct timeline *timeline, uint64_t value)
{
    return value < timeline->last->value && value - timeline->first->value < timeline->last->value - value;
}

/* Returns the last fence on a timeline at or below `value`, or NULL. Searches from the nearer end: points mostly rise,
 * or fall, and the first are merged and signalled first. */
static struct fence *last_up_to(const struct timeline *timeline, uint64_t value)
{
    struct fence *fence = timeline->last;

    if (!fence || value < timeline->first->value)
        return NULL;
    if (is_early(timeline, value)) {
        for (fence = timeline->first; fence->next->value <= value;)
            fence = fence->next;
        return fence;
    }
    while (fence->value > value)
        fence = fence->before;
    return fence;
}

/* Adds a new fence to its timeline, or returns the pending fence that its point already has. */
static struct fence *share(struct timeline *timeline, struct fence *fence)
{
    struct fence *before = last_up_to(timeline, fence->value);

    if (!before || before->value < fence->value) {
        link_after(timeline, before, fence);
        return fence;
    }
    free_fence(fence);
    return before;
}

int record_room(struct fences *fences, size_t count)
{
    *fences = (struct fences){ NULL, 0, NULL };
    if (count == 0)
        return 0;
    fences->at = malloc(count * sizeof fences->at[0]);
    return fences->at ? 0 : ENOMEM;
}

static void hold(struct fences *fences, struct fence *fence)
{
    fence->holders++;
    fences->at[fences->count++] = fence;
}

void record_hold(struct fences *fences, const struct timeline *timeline, uint64_t value)
{
    struct fence *fence = last_up_to(timeline, value);

    if (fence && fence->value == value)
        hold(fences, fence);
}

int record_fence(struct fences *fences, struct timeline *timeline, uint32_t seqno, const bim_device_point *point,
                 struct trace *trace)
{
    struct fence *fence;

    if (record_room(fences, 1))
        return ENOMEM;
    fence = new_fence(timeline, seqno, point->value);
    if (!fence) {
        free(fences->at);
        *fences = (struct fences){ NULL, 0, NULL };
        return ENOMEM;
    }
    trace_event(trace, "init", fence);
    if (point->is_pending) {
        fence = share(timeline, fence);
    } else {
        trace_event(trace, "signaled", fence);
        fence->state = SIGNALLED;
    }
    hold(fences, fence);
    return 0;
}

static void signal_first(struct timeline *timeline, struct trace *trace)
{
    trace_event(trace, "signaled", timeline->first);
    unlink_fence(timeline->first);
}

bool record_signal(struct timeline *timeline, uint64_t pending, struct trace *trace)
{
    bool any = false;

    for (; timeline->first && (pending == 0 || timeline->first->value < pending); any = true)
        signal_first(timeline, trace);
    return any;
}

/* As in the kernel, cancelled fences stay on the timeline. */
void record_close(struct timeline *timeline, uint64_t value, uint64_t now, struct trace *trace)
{
    timeline->value = value;
    for (struct fence *fence = timeline->first; fence; fence = fence->next) {
        trace_event(trace, "signaled", fence);
        fence->state = CANCELLED;
        fence->cancelled_at = now;
    }
}

int record_array(struct fences *fences, uint64_t context, struct trace *trace)
{
    struct fence *array;

    if (!trace || fences->count < 2)
        return 0;
    array = calloc(1, sizeof *array);
    if (!array)
        return ENOMEM;
    array->context = context;
    array->seqno = 1;
    array->driver = "dma_fence_array";
    strcpy(array->timeline_name, "unbound");
    fences->array = array;
    trace_event(trace, "init", array);
    return 0;
}

struct fence *record_waited(const struct fences *fences)
{
    if (fences->array)
        return fences->array;
    return fences->count == 1 ? fences->at[0] : NULL;
}

static void enable(struct fence *fence, struct trace *trace)
{
    if (!fence->is_enabled)
        trace_event(trace, "enable_signal", fence);
    fence->is_enabled = true;
}

void record_enable(struct fences *fences, struct trace *trace)
{
    if (fences->array)
        enable(fences->array, trace);
    for (size_t i = 0; i < fences->count; i++)
        if (is_pending(fences->at[i]))
            enable(fences->at[i], trace);
}

/* Returns whether a fence stays unsignalled when the process that would have signalled it ends. */
static bool is_left(const struct fence *fence)
{
    return is_pending(fence) && fence->timeline->ends_with_process;
}

void record_drop(struct fences *fences, bool with_process, struct trace *trace)
{
    bool any_left = false;

    for (size_t i = 0; i < fences->count; i++) {
        struct fence *fence = fences->at[i];
        bool left = with_process && is_left(fence);

        any_left |= left;
        if (--fence->holders > 0)
            continue;
        unlink_fence(fence);
        if (!left)
            trace_event(trace, "destroy", fence);
        free_fence(fence);
    }
    if (fences->array && !any_left)
        trace_event(trace, "destroy", fences->array);
    free(fences->array);
    free(fences->at);
    *fences = (struct fences){ NULL, 0, NULL };
}
