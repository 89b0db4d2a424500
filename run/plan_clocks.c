/* The orders that a run's threads gave each other, as vector clocks; and the sections of mutexes, where these only exclude. */
#include "plan.h"

#include <string.h>

/* What identifies a lock, a pipe or a socket. */
static uint64_t key_of(const struct plan *plan, const struct log_record *record, uint64_t object)
{
    uint64_t memory = record->flags <= LOG_OTHER_LOCK ? plan->slots[record->thread].memory : 0;
    uint64_t key = object ^ ((uint64_t)record->flags << 56) ^ memory * 0x9e3779b97f4a7c15u;

    return key ? key : 1;
}

/* A section of a mutex that a thread ends. Only one with lines excludes others. */
static void end_section(struct plan *plan, struct plan_thread *thread, struct mutex *mutex)
{
    struct held **at = &thread->held, *held;
    struct section *section;

    while (*at && (*at)->mutex != mutex)
        at = &(*at)->next;
    held = *at;
    if (!held)
        return;
    *at = held->next;
    if (held->from == thread->count) {
        held->next = plan->empties;
        held->thread = thread;
        plan->empties = held;
        return;
    }
    if (!mutex->number)
        mutex->number = ++plan->mutex_count;
    for (unsigned i = held->from; i < thread->count; i++)
        mutex->is_waited_under |= thread->lines[i]->verb == LINE_WAIT;
    section = plan_take(plan, 2 * sizeof *section);
    section[0] = (struct section){ mutex, held->taken, thread->lines[held->from]->begins };
    thread->lines[held->from]->begins = &section[0];
    section[1] = (struct section){ mutex, held->taken, NULL };
    /* Inner sections end first. */
    for (struct section **end = &thread->lines[thread->count - 1]->ends;; end = &(*end)->next)
        if (!*end) {
            *end = &section[1];
            break;
        }
}

static void take_mutex(struct plan *plan, const struct event *event, uint64_t key)
{
    struct mutex *mutex = map_find(&plan->mutexes, key);
    struct held *held;

    if (!mutex) {
        mutex = plan_take(plan, sizeof *mutex);
        plan_put(plan, &plan->mutexes, key, mutex);
    }
    if (event->record->kind == LOG_RELEASE) {
        end_section(plan, event->thread, mutex);
        return;
    }
    held = plan_take(plan, sizeof *held);
    *held = (struct held){ mutex, event->thread->count, event, event->thread, event->thread->held };
    event->thread->held = held;
}

/* An order by a lock, a pipe or a socket. */
static void take_lock(struct plan *plan, const struct event *event)
{
    const struct log_record *record = event->record;
    bool acquires = record->kind == LOG_ACQUIRE;
    uint64_t object = record->object[0], *peer;
    unsigned *clock;

    if (record->flags == LOG_SOCKET && acquires) {
        peer = map_find(&plan->pairs, object);
        object = peer ? *peer : object;
    }
    object = key_of(plan, record, object);
    if (record->flags == LOG_MUTEX && plan->excludes) {
        take_mutex(plan, event, object);
        return;
    }
    clock = map_find(&plan->orders, object);
    if (acquires && clock)
        plan_join(plan, event->thread->clock, clock);
    if (acquires)
        return;
    if (!clock) {
        clock = plan_copy(plan, NULL);
        plan_put(plan, &plan->orders, object, clock);
    }
    plan_join(plan, clock, event->thread->clock);
}

static void take_pair(struct plan *plan, const struct log_record *record)
{
    for (int i = 0; i < 2; i++) {
        uint64_t *peer = plan_take(plan, sizeof *peer);

        *peer = record->object[1 - i];
        map_remove(&plan->pairs, record->object[i]);
        plan_put(plan, &plan->pairs, record->object[i], peer);
    }
}

static struct plan_thread *thread_named(const struct plan *plan, const char *name)
{
    for (unsigned i = 0; i < plan->thread_count && *name; i++)
        if (strcmp(plan->threads[i].name, name) == 0)
            return &plan->threads[i];
    return NULL;
}

/* A process that vfork(2) made comes after all that its parent did before it loaded the library. */
static void begin_process(const struct plan *plan, struct plan_thread *thread)
{
    char maker[LOG_TEXT];
    char *end;
    const struct plan_thread *parent;

    memcpy(maker, thread->name, sizeof maker);
    end = strrchr(maker, '.');
    if (end)
        *end = 0;
    parent = end ? thread_named(plan, maker) : NULL;
    for (unsigned i = 0; parent && i < plan->thread_count; i++)
        if (plan->threads[i].process == parent->process)
            plan_join(plan, thread->clock, plan->threads[i].clock);
}

/* A process has ended, and a thread has waited for that. */
static void reap(const struct plan *plan, struct plan_thread *thread, int process)
{
    for (unsigned i = 0; i < plan->thread_count; i++) {
        struct plan_thread *ended = &plan->threads[i];

        if (ended->process != process || ended == thread)
            continue;
        plan_join(plan, thread->clock, ended->clock);
        ended->is_reaped = true;
    }
}

/* The orders of making and of ends. */
static void take_life(struct plan *plan, const struct event *event)
{
    const struct log_record *record = event->record;
    struct plan_thread *thread = event->thread, *other = record->kind == LOG_REAP ? NULL : thread_named(plan, record->text);

    switch (record->kind) {
    case LOG_CREATE:
        if (other)
            other->created = plan_copy(plan, thread->clock);
        break;
    case LOG_THREAD:
        if (thread->created)
            plan_join(plan, thread->clock, thread->created);
        else
            begin_process(plan, thread);
        break;
    case LOG_JOIN:
        if (other)
            plan_join(plan, thread->clock, other->clock);
        break;
    default: reap(plan, thread, record->result);
    }
}

void plan_take_order(struct plan *plan, const struct event *event)
{
    switch (event->record->kind) {
    case LOG_RELEASE:
    case LOG_ACQUIRE: take_lock(plan, event); break;
    case LOG_PAIR: take_pair(plan, event->record); break;
    default: take_life(plan, event);
    }
}

/* A section without lines matters if another one of its mutex waits, which then keeps its thread out. */
void plan_end_sections(struct plan *plan)
{
    for (struct held *empty = plan->empties; empty; empty = empty->next) {
        struct section *section;
        struct line *line;

        if (!empty->mutex->is_waited_under || empty->from >= empty->thread->count)
            continue;
        line = empty->thread->lines[empty->from];
        section = plan_take(plan, sizeof *section);
        *section = (struct section){ empty->mutex, empty->taken, line->passes };
        line->passes = section;
    }
}
