/* The lines of a plan: what the records of a log become. Orders are kept as vector clocks. */
#define _GNU_SOURCE
#include "plan.h"

#include <linux/dma-buf.h>
#include <stdarg.h>
#include <stdlib.h>
#include <string.h>

enum letter { T, B, F, X };

static void lack(struct plan *plan, const char *form, ...) __attribute__((format(printf, 2, 3)));

/* Notes the first thing that the plan lacks. */
static void lack(struct plan *plan, const char *form, ...)
{
    va_list words;

    if (plan->lack[0])
        return;
    va_start(words, form);
    vsnprintf(plan->lack, sizeof plan->lack, form, words);
    va_end(words);
}

/* Objects' names count those of a thread, so they are equal in each run in which the thread does the same. A long name of a thread has
 * its number in the plan in place. */
static struct thing *make_thing(struct plan *plan, struct plan_thread *thread, uint64_t inode, enum letter letter)
{
    enum { LONG = 16 };
    struct thing *thing = plan_take(plan, sizeof *thing);
    const char *path = strchr(thread->name, '.');
    unsigned number = ++thread->made[letter];

    if (!path)
        snprintf(thing->name, sizeof thing->name, "%c%u", "tbfx"[letter], number);
    else if (strlen(path + 1) <= LONG)
        snprintf(thing->name, sizeof thing->name, "%c%s_%u", "tbfx"[letter], path + 1, number);
    else
        snprintf(thing->name, sizeof thing->name, "%c.%u_%u", "tbfx"[letter], thread->index, number);
    plan_put(plan, &plan->things, inode, thing);
    return thing;
}

/* Returns an object that the run has made. */
static struct thing *thing_of(struct plan *plan, const struct event *event, uint64_t inode)
{
    struct thing *thing = inode ? map_find(&plan->things, inode) : NULL;

    if (!thing)
        lack(plan, "thread %s uses a timeline, a file or a buffer whose making the log doesn't have", event->thread->name);
    return thing;
}

static void note_user(struct thing *thing, struct plan_thread *thread)
{
    if (!thing)
        return;
    thing->is_shared |= thing->user && thing->user != thread;
    thing->user = thread;
}

static struct line *add_line(struct plan *plan, const struct event *event, enum verb verb)
{
    struct plan_thread *thread = event->thread;
    struct line *line = plan_take(plan, sizeof *line);
    size_t room = thread->room;

    *line = (struct line){ .verb = verb, .thread = thread, .number = thread->count + 1, .event = event, .call = event->call };
    line->needs = plan_copy(plan, thread->clock);
    line->needs[thread->index] = 0;
    plan->lines = plan_grow(plan, plan->lines, plan->count, &plan->room);
    plan->lines[plan->count++] = line;
    thread->lines = plan_grow(plan, thread->lines, thread->count, &room);
    thread->room = room;
    thread->lines[thread->count++] = line;
    thread->clock[thread->index] = thread->count;
    map_free(&thread->asked);
    thread->asked = (struct map){ NULL, 0, 0 };
    return line;
}

static void use(struct line *line, struct thing *of, struct thing *with)
{
    line->of = of;
    line->with = with;
    note_user(of, line->thread);
    note_user(with, line->thread);
}

static struct line *add_making(struct plan *plan, const struct event *event, enum verb verb, enum letter letter)
{
    struct line *line = add_line(plan, event, verb);

    line->made = make_thing(plan, event->thread, event->record->object[0], letter);
    line->made->made = line;
    return line;
}

static void take_fence(struct plan *plan, const struct event *event)
{
    struct thing *timeline = thing_of(plan, event, event->record->object[1]);
    struct line *line = add_making(plan, event, LINE_FENCE, F);

    use(line, timeline, NULL);
    line->value = line->made->value = event->record->value;
    line->made->timeline = timeline;
    if (timeline && timeline->greatest < line->value)
        timeline->greatest = line->value;
}

static void take_merge(struct plan *plan, const struct event *event)
{
    struct line *line = add_making(plan, event, LINE_MERGE, F);

    use(line, thing_of(plan, event, event->record->object[1]), thing_of(plan, event, event->record->object[2]));
}

static struct line *add_export(struct plan *plan, const struct event *event, struct thing *buffer, uint64_t file)
{
    struct line *line = add_line(plan, event, LINE_EXPORT);

    line->made = make_thing(plan, event->thread, file, X);
    line->made->made = line;
    use(line, buffer, NULL);
    line->value = event->record->flags;
    return line;
}

static void take_import(struct plan *plan, const struct event *event)
{
    struct line *line = add_line(plan, event, LINE_IMPORT);

    use(line, thing_of(plan, event, event->record->object[0]), thing_of(plan, event, event->record->object[1]));
    line->value = event->record->flags;
}

static void take_inc(struct plan *plan, const struct event *event)
{
    struct thing *timeline = thing_of(plan, event, event->record->object[0]);
    struct line *line = add_line(plan, event, LINE_INC);

    use(line, timeline, NULL);
    line->value = event->record->value;
    if (timeline)
        line->reached = timeline->value += line->value;
}

static struct line *add_wait(struct plan *plan, const struct event *event, struct thing *file)
{
    struct line *line = add_line(plan, event, LINE_WAIT);

    use(line, file, NULL);
    return line;
}

/* A wait for a file. One by which an access begins is for the file that was exported for it. */
static void take_wait(struct plan *plan, const struct event *event)
{
    struct thing *file = thing_of(plan, event, event->record->object[0]);
    struct line *line = add_wait(plan, event, file);

    if (!event->record->flags || !file || !file->made)
        return;
    line->with = file->made->of;
    line->value = file->made->value;
}

static void take_ready(struct plan *plan, const struct event *event)
{
    struct line *line = add_export(plan, event, thing_of(plan, event, event->record->object[0]), 0);

    line->call = 0;
    add_wait(plan, event, line->made);
}

/* Asks by a buffer of the thread whether a file of several fences has signalled, since its rows depend on the moment. */
static void add_check(struct plan *plan, const struct event *event, struct thing *file)
{
    struct plan_thread *thread = event->thread;
    struct line *line = add_line(plan, event, LINE_IMPORT);

    if (!thread->checked) {
        thread->checked = plan_take(plan, sizeof *thread->checked);
        if (strlen(thread->name) < PLAN_NAME - 2)
            snprintf(thread->checked->name, PLAN_NAME, "q.%.29s", thread->name);
        else
            snprintf(thread->checked->name, PLAN_NAME, "q%u", thread->index);
    }
    line->call = 0;
    use(line, thread->checked, file);
    line->value = DMA_BUF_SYNC_WRITE;
    line = add_line(plan, event, LINE_TEST);
    use(line, thread->checked, NULL);
    line->value = DMA_BUF_SYNC_READ;
    line->status = 1;
}

/* A loop that asks until a file has signalled is a wait. If one of several fences has an error, others may be pending. */
static void take_info(struct plan *plan, const struct event *event)
{
    struct thing *file = thing_of(plan, event, event->record->object[0]);
    struct line *line;

    if (!file || (!file->timeline && event->record->result < 0))
        return;
    if (map_find(&event->thread->asked, event->record->object[0])) {
        add_wait(plan, event, file);
    } else if (file->timeline) {
        line = add_line(plan, event, LINE_INFO);
        use(line, file, NULL);
        line->status = event->record->result;
    } else {
        add_check(plan, event, file);
    }
}

static bool is_open_access(const struct line *line, const struct line *end)
{
    return line->verb == LINE_WAIT && line->with == end->of && line->value == end->event->record->flags && !line->access;
}

/* Returns whether an access between two lines overlaps another one of the thread to the same buffer. */
static bool overlaps(const struct plan_thread *thread, const struct line *begin, const struct line *end)
{
    for (unsigned i = begin->number - 1; i < end->number - 1; i++) {
        const struct line *line = thread->lines[i];

        if (line != begin && line->access && (line->with == end->of || line->of == end->of))
            return true;
    }
    return false;
}

static void take_end(struct plan *plan, const struct event *event)
{
    struct plan_thread *thread = event->thread;
    struct line *line = add_line(plan, event, LINE_TEST), *begin = NULL;

    use(line, thing_of(plan, event, event->record->object[0]), NULL);
    line->value = event->record->flags;
    line->status = event->record->result;
    for (unsigned i = thread->count - 1; i > 0 && !begin; i--)
        if (is_open_access(thread->lines[i - 1], line))
            begin = thread->lines[i - 1];
    if (!begin || !line->of || overlaps(thread, begin, line))
        return;
    begin->access = line;
    line->access = begin;
}

static void take_shut(struct plan *plan, const struct event *event)
{
    struct thing *timeline = map_find(&plan->things, event->record->object[0]);
    struct line *line;

    if (!timeline)
        return;
    if (!event->thread) {
        lack(plan, "what closed timeline %s isn't in the log, as a system call or a message that nobody received", timeline->name);
        return;
    }
    line = add_line(plan, event, LINE_SHUT);
    /* Whose end it was, other threads of the process have ended too. */
    for (unsigned i = 0; i < plan->thread_count && !event->call; i++)
        if (plan->threads[i].process == event->thread->process)
            plan_join(plan, line->needs, plan->threads[i].clock);
    line->needs[event->thread->index] = 0;
    line->reached = timeline->value;
    line->of = timeline;
    if (event->call)
        note_user(timeline, event->thread);
}

static void take_again(struct plan *plan, const struct event *event)
{
    uint64_t file = event->record->object[0];

    if (file && !map_find(&event->thread->asked, file))
        plan_put(plan, &event->thread->asked, file, event->thread);
}

static void take(struct plan *plan, const struct event *event)
{
    const struct log_record *record = event->record;

    if (event->call && !event->thread->name[0])
        lack(plan, "the log doesn't say how a thread that uses fences was made");
    switch (record->kind) {
    case LOG_THREAD:
    case LOG_CREATE:
    case LOG_JOIN:
    case LOG_REAP:
    case LOG_RELEASE:
    case LOG_ACQUIRE:
    case LOG_PAIR: plan_take_order(plan, event); break;
    case LOG_TIMELINE: add_making(plan, event, LINE_TIMELINE, T); break;
    case LOG_BUFFER: add_making(plan, event, LINE_BUFFER, B); break;
    case LOG_FENCE: take_fence(plan, event); break;
    case LOG_INC: take_inc(plan, event); break;
    case LOG_MERGE: take_merge(plan, event); break;
    case LOG_EXPORT: add_export(plan, event, thing_of(plan, event, record->object[1]), record->object[0]); break;
    case LOG_IMPORT: take_import(plan, event); break;
    case LOG_INFO: take_info(plan, event); break;
    case LOG_WAIT: take_wait(plan, event); break;
    case LOG_READY: take_ready(plan, event); break;
    case LOG_END: take_end(plan, event); break;
    case LOG_SHUT: take_shut(plan, event); break;
    case LOG_AGAIN: take_again(plan, event); break;
    case LOG_LACKS: lack(plan, "thread %s waits by epoll, which watches several files in the same way", event->thread->name); break;
    default: break;
    }
}

/* Returns whether an event is the first of a call, which may have several: a poll's files, and what begins an access. */
static bool is_new_call(const struct event *event)
{
    if (!event->call || !event->thread || event->call == event->thread->counted || event->record->kind == LOG_SHUT)
        return false;
    event->thread->counted = event->call;
    return true;
}

static bool knows_lines(const struct plan *plan, const struct plan_thread *thread)
{
    for (unsigned i = 0; i < plan->thread_count; i++)
        if (thread->clock[i])
            return true;
    return false;
}

/* Returns whether a thread is another one, or was made by that or by what that made. */
static bool descends(const struct plan_thread *thread, const struct plan_thread *from)
{
    size_t length = strlen(from->name);

    return strncmp(thread->name, from->name, length) == 0 && strchr(".", thread->name[length]);
}

/* Returns whether the log says neither who made a process, nor that it ended, though others went on. */
static bool is_stray(const struct plan *plan, const struct plan_thread *thread)
{
    return !thread->created && !thread->is_reaped && strcmp(thread->name, "1") != 0 && knows_lines(plan, thread) &&
           !descends(plan->lines[plan->count - 1]->thread, thread);
}

/* A process that was waited for by a system call has ended before others go on, which the log doesn't show. */
static void look_for_ends(struct plan *plan)
{
    for (unsigned i = 0; i < plan->thread_count && plan->count; i++)
        if (is_stray(plan, &plan->threads[i]))
            lack(plan, "the end of process %s isn't in the log, as of one that a system call waits for", plan->threads[i].name);
}

void plan_read_lines(struct plan *plan)
{
    uint64_t calls = 0;

    for (size_t i = 0; i < plan->event_count; i++) {
        const struct event *event = &plan->events[i];

        calls += is_new_call(event);
        if (calls > plan->calls)
            break;
        if (event->thread || event->record->kind == LOG_SHUT)
            take(plan, event);
    }
    plan->calls = calls < plan->calls ? calls : plan->calls;
    look_for_ends(plan);
    plan_end_sections(plan);
}
