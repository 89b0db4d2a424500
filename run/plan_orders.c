/* Where each line of a plan is, and which orders of the run need notes (`#mark`, `#after`): those that neither a file, nor the place
 * of the lines, nor another such order keeps. */
#include "plan.h"

#include <limits.h>
#include <string.h>

/* A closing that cancels nothing, of a timeline that only one thread uses, is seen by nobody. */
static bool is_unseen(const struct line *line)
{
    const struct thing *timeline = line->of;

    if (line->verb != LINE_SHUT || line->begins || line->ends)
        return false;
    return !timeline->is_shared && (!timeline->user || timeline->user == line->thread || !line->call) &&
           timeline->greatest <= timeline->value;
}

/* A timeline or a buffer can be made first: nobody can tell. */
static bool is_common(const struct line *line)
{
    return (line->verb == LINE_TIMELINE || line->verb == LINE_BUFFER) && !line->begins && !line->ends && !line->passes;
}

static bool is_left(const struct line *line)
{
    return !line->is_common && !line->is_dropped;
}

/* Numbers the lines of a thread that stay. `kept` becomes, for each count of all its lines, how many of these stay. */
static void keep_lines(struct plan_thread *thread, unsigned *kept)
{
    unsigned count = 0;

    kept[0] = 0;
    for (unsigned i = 0; i < thread->count; i++) {
        struct line *line = thread->lines[i];

        line->is_dropped |= is_unseen(line);
        line->is_common = is_common(line);
        if (is_left(line)) {
            thread->lines[count++] = line;
            line->number = count;
        }
        kept[i + 1] = count;
    }
    thread->count = count;
}

/* Drops the closings behind which there is nothing. `left` has the number of each thread's lines. */
static void drop_last(struct plan *plan)
{
    unsigned *left = plan_copy(plan, NULL);

    for (unsigned t = 0; t < plan->thread_count; t++)
        left[t] = plan->threads[t].count;
    for (size_t i = plan->count; i > 0 && plan->lines[i - 1]->verb == LINE_SHUT; i--) {
        struct line *line = plan->lines[i - 1];

        for (unsigned t = 0; t < plan->thread_count; t++)
            if (&plan->threads[t] != line->thread && line->needs[t] < left[t])
                return;
        line->is_dropped = !line->begins && !line->ends;
        left[line->thread->index]--;
    }
}

static void keep_all(struct plan *plan)
{
    unsigned **kept = plan_take(plan, plan->thread_count * sizeof *kept);

    drop_last(plan);
    for (unsigned i = 0; i < plan->thread_count; i++) {
        kept[i] = plan_take(plan, (plan->threads[i].count + 1) * sizeof **kept);
        keep_lines(&plan->threads[i], kept[i]);
    }
    for (size_t i = 0; i < plan->count; i++)
        for (unsigned t = 0; t < plan->thread_count; t++)
            plan->lines[i]->needs[t] = kept[t][plan->lines[i]->needs[t]];
}

static bool follows_all(const struct plan *plan, const struct line *line)
{
    for (unsigned t = 0; t < plan->thread_count; t++)
        if (&plan->threads[t] != line->thread && line->needs[t] < plan->threads[t].count)
            return false;
    return true;
}

/* Finds the lines of the first thread that come before all others' lines, and those that come after all of them. */
static void find_ends(struct plan *plan)
{
    struct plan_thread *main = plan->main;
    unsigned first = UINT_MAX;

    for (unsigned t = 0; t < plan->thread_count; t++) {
        const struct plan_thread *thread = &plan->threads[t];

        if (thread != main && thread->count && thread->lines[0]->needs[main->index] < first)
            first = thread->lines[0]->needs[main->index];
    }
    plan->first = first == UINT_MAX ? 0 : first;
    plan->last = main->count;
    while (first != UINT_MAX && plan->last > plan->first && follows_all(plan, main->lines[plan->last - 1]))
        plan->last--;
}

static bool comes_after(const struct plan_thread *thread, const struct plan_thread *last)
{
    for (; last; last = last->before)
        if (thread->lines[0]->needs[last->index] < last->count)
            return false;
    return true;
}

/* Threads of which one begins after the other's end share a client. */
static void share_client(struct plan *plan, struct plan_thread *thread)
{
    for (unsigned t = 0; t < plan->thread_count; t++) {
        struct plan_thread *last = &plan->threads[t];

        if (last == plan->main || last == thread || !last->known || last->after || !comes_after(thread, last))
            continue;
        thread->before = last;
        last->after = thread;
        return;
    }
    plan->clients++;
}

/* A thread's first line in the plan: it comes after what the first thread did first, and after the threads before it. */
static void begin_thread(struct plan *plan, struct plan_thread *thread)
{
    share_client(plan, thread);
    thread->known = plan_copy(plan, NULL);
    if (thread != plan->main)
        thread->known[plan->main->index] = plan->first;
    for (const struct plan_thread *before = thread->before; before; before = before->before) {
        plan_join(plan, thread->known, before->known);
        thread->known[before->index] = before->count;
    }
}

/* Comes after a line, and so after all that it comes after. */
static void learn(const struct plan *plan, unsigned *known, const struct line *line)
{
    plan_join(plan, known, line->known);
    if (known[line->thread->index] < line->number)
        known[line->thread->index] = line->number;
}

/* A line comes after those that made what it uses: a `wait` waits for that anyway. */
static void await_made(const struct plan *plan, struct line *line, const struct thing *used)
{
    unsigned *known = line->thread->known;
    const struct line *made = used ? used->made : NULL;

    if (!made || made->thread == line->thread || !is_left(made) || known[made->thread->index] >= made->number)
        return;
    line->awaits |= line->verb != LINE_WAIT;
    learn(plan, known, made);
}

static unsigned long sum_of(const struct plan *plan, const unsigned *clock)
{
    unsigned long sum = 0;

    for (unsigned t = 0; t < plan->thread_count; t++)
        sum += clock[t];
    return sum;
}

/* Returns the line after which a line has to come, and doesn't yet: of several, the one that comes after most. */
static struct line *missing_before(const struct plan *plan, const struct line *line)
{
    struct line *best = NULL;

    for (unsigned t = 0; t < plan->thread_count; t++) {
        struct line *needed;

        if (line->needs[t] <= line->thread->known[t])
            continue;
        needed = plan->threads[t].lines[line->needs[t] - 1];
        if (!best || sum_of(plan, needed->known) > sum_of(plan, best->known))
            best = needed;
    }
    return best;
}

static void await_orders(struct plan *plan, struct line *line)
{
    struct line *needed;

    while ((needed = missing_before(plan, line))) {
        struct order *order = plan_take(plan, sizeof *order), **end = &line->orders;

        if (!needed->mark)
            needed->mark = ++plan->marks;
        *order = (struct order){ needed, NULL };
        while (*end)
            end = &(*end)->next;
        *end = order;
        learn(plan, line->thread->known, needed);
    }
}

static void order_line(struct plan *plan, struct line *line)
{
    struct plan_thread *thread = line->thread;
    bool is_last = thread == plan->main && line->number > plan->last;

    if (!thread->known)
        begin_thread(plan, thread);
    await_made(plan, line, line->of);
    await_made(plan, line, line->with);
    if (is_last)
        line->awaits = false;
    else
        await_orders(plan, line);
    thread->known[thread->index] = line->number;
    line->known = plan_copy(plan, thread->known);
}

static unsigned length_of(const struct section *sections)
{
    unsigned length = 0;

    for (; sections; sections = sections->next)
        length++;
    return length;
}

/* Each section that is passed is begun and ended. A line's notes have one order, and each other one an idle line above it. */
static unsigned commands_of(const struct line *line)
{
    unsigned commands = 1 + 2 * length_of(line->passes) + length_of(line->begins) + length_of(line->ends);

    for (const struct thing *closed = line->closes; closed; closed = closed->next)
        commands++;
    for (const struct order *order = line->orders; order && order->next; order = order->next)
        commands++;
    return commands;
}

static void count_line(struct plan *plan, struct line *line)
{
    line->turn = plan->commands;
    line->commands = line->is_dropped ? 0 : commands_of(line);
    plan->commands += line->commands;
    plan->has_idle_lines |= line->orders && line->orders->next;
    plan->timelines += line->verb == LINE_TIMELINE;
    plan->buffers += line->verb == LINE_BUFFER;
}

void plan_order(struct plan *plan)
{
    keep_all(plan);
    for (size_t i = 0; i < plan->count && !plan->main; i++)
        if (is_left(plan->lines[i]))
            plan->main = plan->lines[i]->thread;
    if (plan->main)
        find_ends(plan);
    for (size_t i = 0; i < plan->count; i++)
        if (is_left(plan->lines[i]))
            order_line(plan, plan->lines[i]);
    plan_close_files(plan);
    for (size_t i = 0; i < plan->count; i++)
        count_line(plan, plan->lines[i]);
    for (unsigned t = 0; t < plan->thread_count; t++) {
        plan->buffers += plan->threads[t].checked != NULL;
        plan->commands += plan->threads[t].checked != NULL;
    }
    if (plan->main && plan->first == plan->last)
        plan->clients--;
    plan->timelines += plan->has_idle_lines || plan->mutex_count;
}
