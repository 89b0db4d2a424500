/* Which files a plan closes. A plan that never closed any would have more than may be open, of a long run. So below its last use each
 * file is closed then that only its maker uses: no other thread can tell. */
#include "plan.h"

static bool is_file(const struct thing *thing)
{
    enum verb verb = thing && thing->made ? thing->made->verb : LINE_SHUT;

    return verb == LINE_FENCE || verb == LINE_MERGE || verb == LINE_EXPORT;
}

/* Notes that a line makes or uses a file. */
static void note_use(struct thing *thing, struct line *line)
{
    if (!is_file(thing))
        return;
    thing->is_lent |= thing->made->thread != line->thread;
    thing->last = line;
}

static void find_uses(const struct plan *plan)
{
    for (size_t i = 0; i < plan->count; i++) {
        struct line *line = plan->lines[i];

        note_use(line->made, line);
        note_use(line->of, line);
        note_use(line->with, line);
    }
}

static void close_below_uses(const struct plan *plan)
{
    for (size_t i = 0; i < plan->count; i++) {
        struct thing *made = plan->lines[i]->made;

        if (!is_file(made) || made->made != plan->lines[i] || made->is_lent)
            continue;
        made->next = made->last->closes;
        made->last->closes = made;
    }
}

/* Returns how many files a client has open at most. */
static unsigned count_open(const struct plan_thread *thread)
{
    unsigned open = 0, most = 0;

    for (; thread; thread = thread->after)
        for (unsigned i = 0; i < thread->count; i++) {
            open += is_file(thread->lines[i]->made);
            most = open > most ? open : most;
            for (const struct thing *file = thread->lines[i]->closes; file; file = file->next)
                open--;
        }
    return most;
}

static unsigned count_of_clients(const struct plan *plan)
{
    unsigned files = plan->mutex_count;

    for (unsigned t = 0; t < plan->thread_count; t++)
        if (!plan->threads[t].before)
            files += count_open(&plan->threads[t]);
    return files;
}

void plan_close_files(struct plan *plan)
{
    plan->files = count_of_clients(plan);
    if (plan->files <= PLAN_FILES)
        return;
    find_uses(plan);
    close_below_uses(plan);
    plan->files = count_of_clients(plan);
}
