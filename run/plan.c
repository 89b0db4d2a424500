#define _GNU_SOURCE
#include "plan.h"

#include "launch.h"
#include "places.h"
#include "report.h"
#include "say.h"

#include <ctype.h>
#include <errno.h>
#include <fcntl.h>
#include <limits.h>
#include <signal.h>
#include <stdlib.h>
#include <string.h>
#include <sys/mman.h>
#include <sys/wait.h>
#include <unistd.h>

/* A block of memory of a plan. */
struct taken {
    struct taken *next;
    _Alignas(16) char bytes[];
};

static void *or_end(void *memory)
{
    if (memory)
        return memory;
    report_remove_temporary();
    exit(fault("a plan", ENOMEM));
}

void *plan_take(struct plan *plan, size_t size)
{
    struct taken *taken = or_end(calloc(1, sizeof *taken + size));

    taken->next = plan->taken;
    plan->taken = taken;
    return taken->bytes;
}

void *plan_grow(struct plan *plan, void *array, size_t count, size_t *room)
{
    void *more;

    if (count < *room)
        return array;
    *room = *room ? 2 * *room : 16;
    more = plan_take(plan, *room * sizeof(void *));
    if (count)
        memcpy(more, array, count * sizeof(void *));
    return more;
}

void plan_put(struct plan *plan, struct map *map, uint64_t key, void *value)
{
    (void)plan;
    if (key && map_add(map, key, value))
        or_end(NULL);
}

unsigned *plan_copy(struct plan *plan, const unsigned *clock)
{
    unsigned *copy = plan_take(plan, plan->thread_count * sizeof *copy);

    if (clock)
        memcpy(copy, clock, plan->thread_count * sizeof *copy);
    return copy;
}

void plan_join(const struct plan *plan, unsigned *clock, const unsigned *other)
{
    for (unsigned i = 0; i < plan->thread_count; i++)
        if (clock[i] < other[i])
            clock[i] = other[i];
}

static void free_plan(struct plan *plan)
{
    struct map *const maps[] = { &plan->things, &plan->orders, &plan->mutexes, &plan->pairs };

    for (size_t i = 0; i < sizeof maps / sizeof maps[0]; i++)
        map_free(maps[i]);
    for (unsigned i = 0; i < plan->thread_count; i++)
        map_free(&plan->threads[i].asked);
    while (plan->taken) {
        struct taken *next = plan->taken->next;

        free(plan->taken);
        plan->taken = next;
    }
}

static bool fits(const struct plan *plan)
{
    return plan->commands <= PLAN_LINES && plan->clients <= PLAN_CLIENTS && plan->files <= PLAN_FILES &&
           plan->timelines <= PLAN_TIMELINES && plan->buffers <= PLAN_BUFFERS;
}

/* Makes the plan of at most `calls` calls. */
static struct plan plan_of(const struct log *log, uint64_t calls, bool excludes)
{
    struct plan plan = { .excludes = excludes };

    plan_read_log(&plan, log);
    plan.calls = calls < plan.calls_of_run ? calls : plan.calls_of_run;
    for (unsigned i = 0; i < plan.thread_count; i++)
        plan.threads[i].clock = plan_copy(&plan, NULL);
    plan_read_lines(&plan);
    plan_order(&plan);
    return plan;
}

/* Makes the plan of as many calls as fit. */
static struct plan plan_that_fits(const struct log *log, uint64_t calls, bool excludes)
{
    for (;;) {
        struct plan plan = plan_of(log, calls, excludes);

        if (fits(&plan) || plan.calls == 0)
            return plan;
        calls = plan.calls - plan.calls / 8 - 1;
        free_plan(&plan);
    }
}

static void add_places(const struct plan *plan, struct places *places)
{
    for (size_t i = 0; i < plan->count; i++)
        for (int frame = 0; plan->lines[i]->event->place && frame < LOG_FRAMES && plan->lines[i]->event->place->frames[frame]; frame++) {
            const struct log_record *record = plan->lines[i]->event->place;
            struct spot spot = plan_spot(plan, record, record->frames[frame] - 1);

            if (spot.object)
                places_add(places, spot.object, spot.address);
        }
    for (unsigned t = 0; t < plan->thread_count; t++)
        if (plan->threads[t].routine) {
            struct spot spot = plan_spot(plan, plan->threads[t].routine, plan->threads[t].routine->frames[0]);

            if (spot.object)
                places_add(places, spot.object, spot.address);
        }
}

/* A client is called by what its thread runs, if that is known. */
static void set_titles(struct plan *plan, const struct places *places)
{
    for (unsigned t = 0; t < plan->thread_count; t++) {
        struct plan_thread *thread = &plan->threads[t];
        struct spot spot = thread->routine ? plan_spot(plan, thread->routine, thread->routine->frames[0]) : (struct spot){ NULL, 0 };
        const struct place *place = spot.object ? places_at(places, spot.object, spot.address) : NULL;

        if (place && place->count && place->calls[place->count - 1].function[0])
            snprintf(thread->title, sizeof thread->title, "%.15s", place->calls[place->count - 1].function);
        for (char *byte = thread->title; *byte; byte++)
            *byte = isalnum((unsigned char)*byte) || *byte == '-' ? *byte : '_';
    }
}

/* Becomes `fencectl check` (exec) of the script in a file, with what it says in a pipe. */
static void become_check(int script, int output)
{
    char fencectl[PATH_MAX];
    sigset_t none;

    sigemptyset(&none);
    sigprocmask(SIG_SETMASK, &none, NULL);
    dup2(script, STDIN_FILENO);
    dup2(output, STDERR_FILENO);
    dup2(output, STDOUT_FILENO);
    unsetenv("LD_PRELOAD");
    launch_find_fencectl(fencectl);
    execlp(fencectl, "fencectl", "check", (char *)NULL);
    dprintf(STDOUT_FILENO, "fencectl: %s\n", strerror(errno));
    _exit(STATUS_FAULT);
}

/* Returns the status of a check, and the first line that it says. */
static int check(int script, char *said, size_t room)
{
    int ends[2], waited = STATUS_FAULT << 8;
    pid_t child;
    FILE *from;
    char rest[256];

    if (pipe2(ends, O_CLOEXEC))
        return STATUS_FAULT;
    child = fork();
    if (child == 0)
        become_check(script, ends[1]);
    close(ends[1]);
    from = fdopen(ends[0], "r");
    said[0] = 0;
    if (from && fgets(said, room, from))
        said[strcspn(said, "\n")] = 0;
    while (from && fgets(rest, sizeof rest, from)) {}
    if (from)
        fclose(from);
    while (child > 0 && waitpid(child, &waited, 0) < 0 && errno == EINTR) {}
    return launch_status(waited);
}

/* Checks that the run is a schedule of its plan: that its lines are answered as the program was. Returns an exit status. */
static int check_run(const struct plan *plan)
{
    char said[256];
    int script = memfd_create("run", MFD_CLOEXEC), status;
    FILE *to = script < 0 ? NULL : fdopen(dup(script), "w");

    if (!to)
        return fault("a file for the run", errno);
    plan_write_run(plan, to);
    if (fclose(to))
        return fault("a file for the run", errno);
    lseek(script, 0, SEEK_SET);
    status = check(script, said, sizeof said);
    close(script);
    if (status == 0)
        return 0;
    if (status > 2)
        return say("no plan, since the run can't be checked: %s", said), STATUS_FAULT;
    say("no plan, since it would lack something that the run did: %s", said);
    return STATUS_NO_PLAN;
}

static int write_file(struct plan *plan, const char *file, const char *program)
{
    struct places places = { NULL, 0, 0 };
    FILE *to = fopen(file, "we");
    int error = to ? 0 : errno;

    add_places(plan, &places);
    places_find(&places);
    set_titles(plan, &places);
    if (to)
        plan_write(plan, &places, program, to);
    if (to && fclose(to))
        error = errno;
    places_free(&places);
    return error ? fault(file, error) : 0;
}

int plan_make(const struct log *log, const char *file, uint64_t calls, bool excludes, const char *program)
{
    struct plan plan = plan_that_fits(log, calls, excludes);
    int status = STATUS_NO_PLAN;

    if (plan.lack[0])
        say("no plan, since it would lack something: %s", plan.lack);
    else if (!plan.count)
        say("no plan, since the program made no fence");
    else
        status = check_run(&plan);
    if (!status)
        status = write_file(&plan, file, program);
    if (!status && plan.calls < plan.calls_of_run)
        say("the plan has the first %llu of %llu calls", (unsigned long long)plan.calls, (unsigned long long)plan.calls_of_run);
    free_plan(&plan);
    return status;
}
