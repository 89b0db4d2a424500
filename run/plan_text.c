/* Writes a plan, and the run that it was made of as a script. */
#define _GNU_SOURCE
#include "plan.h"

#include "places.h"

#include <linux/dma-buf.h>
#include <string.h>

/* No line of a script may be longer, without its line feed. */
enum { LINE_BYTES = 256 };

/* Writes where the program made a call. */
static void write_places(const struct plan *plan, const struct log_record *record, const struct places *places, char *text, size_t room)
{
    struct spot spots[LOG_FRAMES];
    int count = 0;

    for (; record && count < LOG_FRAMES && record->frames[count]; count++)
        spots[count] = plan_spot(plan, record, record->frames[count] - 1);
    places_write(places, spots, count, text, room);
}

static const char *flags_of(uint64_t flags)
{
    switch (flags & DMA_BUF_SYNC_RW) {
    case DMA_BUF_SYNC_READ: return "read";
    case DMA_BUF_SYNC_WRITE: return "write";
    default: return "rw";
    }
}

static const char *name_of(const struct thing *thing)
{
    return thing ? thing->name : "unknown";
}

/* An access for reading waits for writers, one for writing for all. */
static const char *tested(uint64_t flags)
{
    return flags & DMA_BUF_SYNC_WRITE ? "read" : "write";
}

static void write_command(const struct line *line, FILE *to)
{
    const char *made = name_of(line->made), *of = name_of(line->of), *with = name_of(line->with);
    unsigned long long value = line->value;

    switch (line->verb) {
    case LINE_TIMELINE: fprintf(to, "timeline %s\n", made); break;
    case LINE_BUFFER: fprintf(to, "buffer %s\n", made); break;
    case LINE_FENCE: fprintf(to, "fence %s %s %llu\n", made, of, value); break;
    case LINE_MERGE: fprintf(to, "merge %s %s %s\n", made, of, with); break;
    case LINE_EXPORT: fprintf(to, "export %s %s %s\n", made, of, flags_of(value)); break;
    case LINE_IMPORT: fprintf(to, "import %s %s %s\n", of, with, flags_of(value)); break;
    case LINE_INC: fprintf(to, "inc %s %llu\n", of, value); break;
    case LINE_WAIT: fprintf(to, "wait %s\n", of); break;
    case LINE_INFO: fprintf(to, "info %s\n", of); break;
    case LINE_TEST: fprintf(to, "test %s %s\n", of, tested(value)); break;
    case LINE_SHUT: fprintf(to, "shut %s\n", of); break;
    }
}

/* What every order has to answer: what the program saw. */
static void write_expected(const struct line *line, FILE *to)
{
    if (line->verb == LINE_INFO) {
        fprintf(to, "#= ok %s %d 1\n", name_of(line->of), line->status);
        fprintf(to, "#= fence %s sw_sync %llu %d\n", name_of(line->of->timeline), (unsigned long long)line->of->value, line->status);
    } else if (line->verb == LINE_TEST && line->status) {
        fputs("#= ok 1\n", to);
    }
}

/* What the run itself answered. */
static void write_answered(const struct line *line, FILE *to)
{
    switch (line->verb) {
    case LINE_INFO: write_expected(line, to); break;
    case LINE_TEST: fprintf(to, "#= ok %d\n", line->status); break;
    case LINE_INC:
    case LINE_SHUT: fprintf(to, "#= ok %llu\n", (unsigned long long)line->reached); break;
    case LINE_TIMELINE: break;
    default: fputs("#= ok\n", to);
    }
}

/* Writes which call of which thread a line was, when, and where in the program. */
static void write_origin(const struct plan *plan, const struct line *line, const struct places *places, FILE *to)
{
    char place[LINE_BYTES / 2], text[LINE_BYTES + 1];
    const struct event *event = line->event;

    write_places(plan, event->place, places, place, sizeof place);
    if (line->call)
        snprintf(text, sizeof text, "# @%s:%u +%.3f ms %s", line->thread->name, line->call, (event->time - plan->begun) / 1e6, place);
    else if (line->verb == LINE_SHUT)
        snprintf(text, sizeof text, "# thread %s: at the end of its process", line->thread->name);
    else
        return;
    fprintf(to, "%s\n", text);
}

static bool is_of_client(const struct plan *plan, const struct line *line)
{
    if (line->is_common)
        return false;
    return line->thread != plan->main || (line->number > plan->first && line->number <= plan->last);
}

/* A line whose commands are written: those of locks and idle ones are around its own. */
struct writing {
    const struct line *line;
    const struct order *orders; /* those that aren't written yet */
    unsigned written;
    bool is_of_client;
    FILE *to;
};

/* Writes the notes of a line's next command: when it comes in the run, after which line it has to come, and whether others come
 * after the line. */
static void write_notes(struct writing *writing)
{
    const struct line *line = writing->line;

    writing->written++;
    if (!writing->is_of_client)
        return;
    fprintf(writing->to, "#turn %u\n", line->turn + writing->written);
    if (writing->orders) {
        fprintf(writing->to, "#after o%u\n", writing->orders->line->mark);
        writing->orders = writing->orders->next;
    }
    if (line->mark && writing->written == line->commands)
        fprintf(writing->to, "#mark o%u\n", line->mark);
}

/* A command has one order: each other one is that of an idle line above it. */
static void write_idle(struct writing *writing)
{
    while (writing->orders && writing->orders->next) {
        write_notes(writing);
        fputs("value order\n", writing->to);
    }
}

/* Writes that a section begins, below which mutex of its thread it is. A wait for a condition ends with one that has no number. */
static void write_taken(struct writing *writing, const struct section *section)
{
    if (section->taken->record->call)
        fprintf(writing->to, "# @%s:L%u\n", section->taken->thread->name, section->taken->record->call);
    write_notes(writing);
    fprintf(writing->to, "#await\nfence lock%u order 0\n", section->mutex->number);
}

static void write_given(struct writing *writing, const struct section *given)
{
    write_notes(writing);
    fprintf(writing->to, "close lock%u\n", given->mutex->number);
}

static void write_before(struct writing *writing)
{
    write_idle(writing);
    for (const struct section *passed = writing->line->passes; passed; passed = passed->next) {
        write_taken(writing, passed);
        write_given(writing, passed);
    }
    for (const struct section *taken = writing->line->begins; taken; taken = taken->next)
        write_taken(writing, taken);
}

/* Writes the notes of an access that begins or ends with a line. */
static void write_access(const struct plan *plan, const struct line *line, FILE *to)
{
    const struct line *other = line->access;

    if (!other || !is_of_client(plan, line) || !is_of_client(plan, other))
        return;
    if (line->verb == LINE_TEST)
        fprintf(to, "#done %s\n", name_of(line->of));
    else
        fprintf(to, "#%s %s\n", line->value & DMA_BUF_SYNC_WRITE ? "writes" : "reads", name_of(line->with));
}

static void write_closes(struct writing *writing)
{
    for (const struct thing *closed = writing->line->closes; closed; closed = closed->next) {
        write_notes(writing);
        fprintf(writing->to, "close %s\n", closed->name);
    }
}

static void write_line(const struct plan *plan, const struct line *line, const struct places *places, FILE *to)
{
    struct writing writing = { .line = line, .orders = line->orders, .is_of_client = is_of_client(plan, line), .to = to };

    write_before(&writing);
    write_origin(plan, line, places, to);
    write_notes(&writing);
    if (line->awaits)
        fputs("#await\n", to);
    write_command(line, to);
    write_expected(line, to);
    write_access(plan, line, to);
    for (const struct section *given = line->ends; given; given = given->next)
        write_given(&writing, given);
    write_closes(&writing);
}

static void write_lines(const struct plan *plan, const struct plan_thread *thread, unsigned from, unsigned to_line,
                        const struct places *places, FILE *to)
{
    for (unsigned i = from; i < to_line; i++)
        write_line(plan, thread->lines[i], places, to);
}

static void write_checked_buffers(const struct plan *plan, FILE *to)
{
    for (unsigned t = 0; t < plan->thread_count; t++)
        if (plan->threads[t].checked)
            fprintf(to, "buffer %s\n", plan->threads[t].checked->name);
}

static void write_head(const struct plan *plan, const char *program, FILE *to)
{
    char name[LINE_BYTES / 2];

    snprintf(name, sizeof name, "%s", program);
    for (char *byte = name; *byte; byte++)
        *byte = *byte < ' ' ? '?' : *byte;
    fprintf(to, "# One run of %s (bimphlai-run --plan): %llu of its %llu calls.\n", name, (unsigned long long)plan->calls,
            (unsigned long long)plan->calls_of_run);
    fputs("# Above the line of a call are its thread, its number in that, its time, its place in the program, and its turn in the run.\n"
          "# Orders of threads by their making, their ends, pipes and pairs of sockets are kept as in the run.\n",
          to);
    fputs(plan->excludes ? "# A mutex excludes: its sections come in any order. All other locks' orders are kept (--orders locks).\n" :
                           "# Orders of locks are kept as in the run (--orders all).\n", to);
    fputs("# Not seen, so in any order: what atomics, futexes, event files, signals, other sockets and shared memory order.\n"
          "# Not seen at all: accesses of memory without DMA_BUF_IOCTL_SYNC, and calls that bypass the C library.\n",
          to);
}

/* Writes what comes before the clients. */
static void write_first(const struct plan *plan, const struct places *places, FILE *to)
{
    if (plan->has_idle_lines || plan->mutex_count)
        fputs("# No calls of the program: `fence lock1 order 0` locks a mutex, and `value order` only comes after a marked line.\n"
              "timeline order\n", to);
    for (size_t i = 0; i < plan->count; i++)
        if (plan->lines[i]->is_common)
            write_line(plan, plan->lines[i], places, to);
    write_checked_buffers(plan, to);
    if (plan->main)
        write_lines(plan, plan->main, 0, plan->first, places, to);
}

/* A client's name has what its thread runs, as far as there is room, and the thread's name, or its number in the plan if that is
 * too long. */
static void write_title(const struct plan_thread *thread, FILE *to)
{
    int length = strlen(thread->name), room = PLAN_NAME - 2 - length;

    if (strcmp(thread->name, "1") == 0)
        fprintf(to, "\n#client %s\n", thread->title);
    else if (room > 0)
        fprintf(to, "\n#client %.*s-%s\n", room, thread->title, thread->name);
    else
        fprintf(to, "\n#client %s-t%u\n", thread->title, thread->index);
}

static void write_client(const struct plan *plan, const struct plan_thread *thread, const struct places *places, FILE *to)
{
    write_title(thread, to);
    for (; thread; thread = thread->after) {
        if (thread->before)
            fprintf(to, "# thread %s, after thread %s\n", thread->name, thread->before->name);
        write_lines(plan, thread, thread == plan->main ? plan->first : 0, thread == plan->main ? plan->last : thread->count, places, to);
    }
}

/* Writes the notes of calls that have no line, since nobody can tell: whoever follows the plan makes them out of turn. */
static void write_unseen(const struct plan *plan, FILE *to)
{
    for (size_t i = 0; i < plan->count; i++)
        if (plan->lines[i]->is_dropped && plan->lines[i]->call)
            fprintf(to, "# @%s:%u\n", plan->lines[i]->thread->name, plan->lines[i]->call);
}

void plan_write(const struct plan *plan, const struct places *places, const char *program, FILE *to)
{
    write_head(plan, program, to);
    write_first(plan, places, to);
    for (unsigned t = 0; t < plan->thread_count; t++) {
        const struct plan_thread *thread = plan->sorted[t];

        if (thread->count && !thread->before && (thread != plan->main || plan->last > plan->first))
            write_client(plan, thread, places, to);
    }
    if (plan->main && plan->last < plan->main->count) {
        fputs("\n#finally\n", to);
        write_lines(plan, plan->main, plan->last, plan->main->count, places, to);
    }
    write_unseen(plan, to);
}

void plan_write_run(const struct plan *plan, FILE *to)
{
    write_checked_buffers(plan, to);
    for (size_t i = 0; i < plan->count; i++)
        if (!plan->lines[i]->is_dropped) {
            write_command(plan->lines[i], to);
            write_answered(plan->lines[i], to);
            for (const struct thing *closed = plan->lines[i]->closes; closed; closed = closed->next)
                fprintf(to, "close %s\n#= ok\n", closed->name);
        }
}
