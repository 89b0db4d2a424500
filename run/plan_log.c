/* Reads a log: who its threads are, what they have in memory, and the events in order of time. */
#define _GNU_SOURCE
#include "plan.h"

#include <stdlib.h>
#include <string.h>

static size_t record_count(const struct log *log)
{
    return log->records < LOG_ROOM ? log->records : LOG_ROOM;
}

static struct plan_thread *thread_called(struct plan *plan, const char *name)
{
    struct plan_thread *thread;

    for (unsigned i = 0; i < plan->thread_count && *name; i++)
        if (strcmp(plan->threads[i].name, name) == 0)
            return &plan->threads[i];
    thread = &plan->threads[plan->thread_count];
    *thread = (struct plan_thread){ .index = plan->thread_count++ };
    memcpy(thread->name, name, LOG_TEXT);
    return thread;
}

/* After an exec, a thread has another memory and another title. */
static void read_thread(struct plan *plan, const struct log_record *record)
{
    struct slot *slot = &plan->slots[record->thread];

    slot->thread = thread_called(plan, record->text);
    slot->memory = record->call;
    slot->thread->process = record->result;
    slot->thread->routine = NULL;
}

static void set_title(struct plan_thread *thread, const char *task)
{
    snprintf(thread->title, sizeof thread->title, "%.15s", task);
}

/* Returns the length of a piece of a path. */
static size_t piece_of(const struct log_record *record)
{
    size_t left = record->result - record->call;

    return strnlen(record->text, left < LOG_TEXT ? left : LOG_TEXT);
}

/* Adds the next piece of a path. */
static void read_loaded(struct plan *plan, const struct log_record *record)
{
    struct loaded *loaded = plan->loaded;
    uint32_t memory = plan->slots[record->thread].memory;

    if (record->call == 0) {
        loaded = plan_take(plan, sizeof *loaded);
        *loaded = (struct loaded){ memory, record->base, plan_take(plan, record->result + 1), plan->loaded };
        plan->loaded = loaded;
    }
    while (loaded && (loaded->memory != memory || loaded->base != record->base))
        loaded = loaded->next;
    if (loaded)
        memcpy(loaded->path + record->call, record->text, piece_of(record));
}

/* Reads what a record says about its thread, or the service. Returns whether it is an event. */
static bool is_event(struct plan *plan, const struct log_record *record)
{
    struct plan_thread *thread = plan->slots[record->thread].thread;

    if (!thread && record->kind != LOG_THREAD)
        return record->kind == LOG_SHUT;
    switch (record->kind) {
    case LOG_UNFINISHED: return false;
    case LOG_TASK: set_title(thread, record->text); return false;
    case LOG_ROUTINE: thread->routine = record; return false;
    case LOG_LOADED: read_loaded(plan, record); return false;
    case LOG_THREAD: read_thread(plan, record); return true;
    default: return true;
    }
}

static int compare(const void *left, const void *right)
{
    const struct event *a = left, *b = right;

    if (a->time != b->time)
        return a->time < b->time ? -1 : 1;
    return a->record < b->record ? -1 : a->record > b->record;
}

static bool is_call(const struct log_record *record)
{
    return record->call && record->kind >= LOG_TIMELINE && record->kind <= LOG_LAST_CALL;
}

/* Returns whether an event may have come after one that a full log doesn't have. */
static bool is_past_end(const struct log *log, const struct event *event)
{
    enum { UNSURE = 1000 };

    return log->records > LOG_ROOM && event->time >= log->all[LOG_ROOM - UNSURE].time;
}

static void read_events(struct plan *plan, const struct log *log)
{
    for (size_t i = 0; i < record_count(log); i++) {
        const struct log_record *record = &log->all[i];

        if (record->thread >= plan->slot_count || !is_event(plan, record))
            continue;
        plan->events[plan->event_count++] =
            (struct event){ record->time, record, plan->slots[record->thread].thread, is_call(record) ? record->call : 0, record };
    }
    qsort(plan->events, plan->event_count, sizeof *plan->events, compare);
    while (plan->event_count && is_past_end(log, &plan->events[plan->event_count - 1]))
        plan->event_count--;
    for (size_t i = 0; i < plan->event_count; i++)
        if (plan->events[i].thread)
            plan->events[i].thread->last = plan->events[i].time;
    plan->begun = plan->event_count ? plan->events[0].time : 0;
}

/* Returns whether a thread did nothing between two events. */
static bool is_within(const struct plan *plan, const struct plan_thread *thread, size_t from, size_t to)
{
    for (size_t i = from + 1; i < to; i++)
        if (plan->events[i].thread == thread)
            return false;
    return true;
}

/* Returns the call that closed a timeline: the first to end after that, and to begin before. */
static const struct event *closing_of(const struct plan *plan, size_t shut)
{
    uint64_t timeline = plan->events[shut].record->object[0];

    for (size_t i = shut + 1; i < plan->event_count; i++) {
        const struct event *event = &plan->events[i];

        if (event->record->kind == LOG_CLOSE && event->thread && event->call &&
            event->record->object[0] == timeline && is_within(plan, event->thread, shut, i))
            return event;
    }
    return NULL;
}

/* Returns the time of the last record of a process. */
static uint64_t end_of(const struct plan *plan, int process)
{
    uint64_t last = 0;

    for (unsigned i = 0; i < plan->thread_count; i++)
        if (plan->threads[i].process == process && plan->threads[i].last > last)
            last = plan->threads[i].last;
    return last;
}

static bool uses(const struct log_record *record, uint64_t object)
{
    return is_call(record) && record->kind != LOG_CLOSE &&
           (record->object[0] == object || (record->kind == LOG_FENCE && record->object[1] == object));
}

/* Returns the last use of a timeline before it was shut, or NULL. */
static const struct event *last_use(const struct plan *plan, size_t shut)
{
    for (size_t i = shut; i > 0; i--)
        if (plan->events[i - 1].thread && uses(plan->events[i - 1].record, plan->events[shut].record->object[0]))
            return &plan->events[i - 1];
    return NULL;
}

static struct plan_thread *first_of(const struct plan *plan, int process)
{
    for (unsigned i = 0; i < plan->thread_count; i++)
        if (plan->threads[i].process == process)
            return &plan->threads[i];
    return NULL;
}

/* Returns when a process was waited for, after its last record and before some time, or 0. */
static uint64_t reaped_before(const struct plan *plan, int process, uint64_t time)
{
    uint64_t end = end_of(plan, process);

    for (size_t i = 0; i < plan->event_count; i++) {
        const struct log_record *record = plan->events[i].record;

        if (record->kind == LOG_REAP && record->result == process && record->time > end && record->time <= time)
            return record->time;
    }
    return 0;
}

/* Returns whether the service has looked for closings between two times, as before it answers most calls. */
static bool has_looked(const struct plan *plan, uint64_t from, uint64_t to)
{
    for (size_t i = 0; i < plan->event_count; i++) {
        const struct event *event = &plan->events[i];

        if (event->call && event->record->kind != LOG_INC && event->record->kind != LOG_FENCE && event->record->kind != LOG_WAIT &&
            event->record->kind != LOG_READY && event->time > from && event->time < to)
            return true;
    }
    return false;
}

/* Returns whether a timeline may have been closed with the end of a process. */
static bool may_end_with(const struct plan *plan, const struct event *shut, int process)
{
    uint64_t reaped = reaped_before(plan, process, shut->record->time);

    return end_of(plan, process) < shut->record->time && !(reaped && has_looked(plan, reaped, shut->record->time));
}

/* Returns the first thread of the process with whose end a timeline was closed: the last user's, or else the one that ended last. */
static struct plan_thread *ended_with(const struct plan *plan, const struct event *shut, const struct event *use)
{
    struct plan_thread *best = NULL;
    uint64_t best_end = use ? use->time : 0;

    if (use && may_end_with(plan, shut, use->thread->process))
        return first_of(plan, use->thread->process);
    for (unsigned i = 0; i < plan->thread_count; i++) {
        uint64_t end = end_of(plan, plan->threads[i].process);

        if (end > best_end && may_end_with(plan, shut, plan->threads[i].process)) {
            best = first_of(plan, plan->threads[i].process);
            best_end = end;
        }
    }
    return best;
}

/* A process has closed its timelines before its parent has waited for it; the service sees that microseconds later. */
static uint64_t before_reaping(const struct plan *plan, const struct event *shut, int process, const struct event *use)
{
    uint64_t reaped = reaped_before(plan, process, shut->time);

    return reaped && (!use || use->time < reaped) ? reaped - 1 : shut->time;
}

static void find_closings(struct plan *plan)
{
    for (size_t i = 0; i < plan->event_count; i++) {
        struct event *event = &plan->events[i];
        const struct event *closing, *use;

        if (event->record->kind != LOG_SHUT)
            continue;
        closing = closing_of(plan, i);
        if (closing) {
            *event = (struct event){ event->time, event->record, closing->thread, closing->call, closing->record };
            continue;
        }
        use = last_use(plan, i);
        event->thread = ended_with(plan, event, use);
        event->place = NULL;
        if (event->thread)
            event->time = before_reaping(plan, event, event->thread->process, use);
    }
    qsort(plan->events, plan->event_count, sizeof *plan->events, compare);
}

static int compare_names(const void *left, const void *right)
{
    const struct plan_thread *const *a = left, *const *b = right;

    return strverscmp((*a)->name, (*b)->name);
}

static void sort_threads(struct plan *plan)
{
    plan->sorted = plan_take(plan, plan->thread_count * sizeof *plan->sorted);
    for (unsigned i = 0; i < plan->thread_count; i++)
        plan->sorted[i] = &plan->threads[i];
    qsort(plan->sorted, plan->thread_count, sizeof *plan->sorted, compare_names);
}

void plan_read_log(struct plan *plan, const struct log *log)
{
    plan->slot_count = log->threads + 1;
    plan->slots = plan_take(plan, plan->slot_count * sizeof *plan->slots);
    plan->threads = plan_take(plan, plan->slot_count * sizeof *plan->threads);
    plan->events = plan_take(plan, (record_count(log) + 1) * sizeof *plan->events);
    read_events(plan, log);
    find_closings(plan);
    sort_threads(plan);
    plan->calls_of_run = log->calls;
}

struct spot plan_spot(const struct plan *plan, const struct log_record *record, uint64_t address)
{
    const struct loaded *best = NULL;
    uint32_t memory = plan->slots[record->thread].memory;

    for (const struct loaded *loaded = plan->loaded; loaded; loaded = loaded->next)
        if (loaded->memory == memory && loaded->base <= address && (!best || loaded->base > best->base))
            best = loaded;
    return best && best->path[0] ? (struct spot){ best->path, address - best->base } : (struct spot){ NULL, address };
}
