#define _GNU_SOURCE
#include "verdict.h"

#include "folder.h"
#include "launch.h"
#include "noted.h"
#include "processes.h"
#include "report.h"
#include "say.h"
#include "schedule.h"
#include "turns.h"
#include "ways.h"
#include "wire.h"

#include <errno.h>
#include <limits.h>
#include <stdint.h>
#include <stdio.h>
#include <stdlib.h>
#include <string.h>

enum { NANOSECONDS_OF_MS = 1000000, CALL_ROOM = SCHEDULE_PLACE + 64, LAST = 5, END_ROOM = 32 };

static struct schedule *schedule;
static bool has_hung;

/* Makes a file of the run's folder, whose path an environment variable then has. Returns 0 or an errno. */
static int make_shared(const char *name, const char *variable, const struct schedule *content)
{
    char path[PATH_MAX];
    int error = report_path(name, path);

    if (!error)
        error = content ? schedule_make(path, content) : processes_make(path);
    if (!error && content)
        schedule = schedule_open(path);
    if (!error && content && !schedule)
        error = ENOMEM;
    return error ? error : setenv(variable, path, 1) ? errno : 0;
}

/* Half of all nanoseconds are forever. */
static uint64_t nanoseconds_of(unsigned long long milliseconds)
{
    const uint64_t most = UINT64_MAX / 2;

    return milliseconds < most / NANOSECONDS_OF_MS ? milliseconds * NANOSECONDS_OF_MS : most;
}

int verdict_begin(const struct options *options)
{
    char folder[PATH_MAX];
    struct schedule *read;
    int error = report_path(".", folder);

    if (error)
        return fault("a folder for the schedule", error);
    read = turns_read(options->schedule, options->finding, folder);
    if (!read)
        return STATUS_OPTIONS;
    read->patience = nanoseconds_of(options->patience);
    read->turned = schedule_now();
    error = report_path(FOLDER_WAYS, read->ways);
    if (!error)
        error = ways_begin(read->ways);
    if (!error)
        error = make_shared(FOLDER_THREADS, BIM_THREADS, NULL);
    if (!error)
        error = make_shared(FOLDER_SCHEDULE, BIM_FOLLOW, read);
    free(read);
    return error ? fault("a file for the schedule", error) : 0;
}

bool verdict_hangs(void)
{
    return schedule && schedule->outcome == SCHEDULE_MADE && schedule->waiting > 0 &&
           schedule_now() > schedule->last + schedule->patience;
}

void verdict_note_hang(void)
{
    has_hung = true;
}

/* Writes which call of its thread a turn is, its kind, and its place. */
static void write_call(char *text, const struct turn *turn)
{
    snprintf(text, CALL_ROOM, "its call %u (%s%s%.119s)", turn->number, noted_word(turn->kind), turn->place[0] ? ", " : "",
             turn->place);
}

/* Says what the last calls of the schedule were, which leave the run's order as a rule. */
static void tell_last(void)
{
    uint32_t first = schedule->turns > LAST ? schedule->turns - LAST : 0;

    say("its last calls:");
    for (uint32_t i = first; i < schedule->turns; i++)
        say("  %-9s %-8s %.119s", schedule->all[i].thread.text, noted_word(schedule->all[i].kind), schedule->all[i].place);
}

static int tell_made(int status, bool has_findings)
{
    const char *made = "all calls of the schedule were made";

    if (has_hung)
        say("happens: %s, and then the program hung", made);
    else if (status != 0)
        say("happens: %s, and the program ended with status %d", made, status);
    else if (has_findings)
        say("happens: %s, and an access ended while a fence was pending", made);
    else if (schedule->is_race)
        say("happens: %s, and two threads accessed a buffer at once", made);
    else
        return say("harmless: %s, and nothing failed", made), VERDICT_HARMLESS;
    tell_last();
    return VERDICT_HAPPENS;
}

/* Writes how the program ended, unless it succeeded. */
static void write_end(char *text, size_t room, int status)
{
    text[0] = 0;
    if (has_hung)
        snprintf(text, room, "; then it hung");
    else if (status != 0)
        snprintf(text, room, "; its status was %d", status);
}

static int tell_missed(int status)
{
    const struct turn *turn = &schedule->all[schedule->at], *other = &schedule->other;
    char missed[CALL_ROOM], waited[CALL_ROOM], ended[END_ROOM];

    write_call(missed, turn);
    write_call(waited, other);
    write_end(ended, sizeof ended, status);
    if (schedule->outcome == SCHEDULE_MISSED)
        say("not reached: after %u of %u calls %s did not come to %s while %s waited to make %s%s", schedule->at, schedule->turns,
            turn->thread.text, missed, other->thread.text, waited, ended);
    else
        say("not reached: the program ended after %u of %u calls, before %s came to %s%s", schedule->at, schedule->turns,
            turn->thread.text, missed, ended);
    return VERDICT_NOT_REACHED;
}

/* Says that a turn's thread made another call: of another kind, or at another place. */
static int tell_left(uint32_t at, enum step_kind kind, const char *place, int status)
{
    char wanted[CALL_ROOM], ended[END_ROOM];

    write_call(wanted, &schedule->all[at]);
    write_end(ended, sizeof ended, status);
    say("another way: after %u of %u calls %s was to make %s, but made another call (%s%s%s)%s", at, schedule->turns,
        schedule->all[at].thread.text, wanted, noted_word(kind), place[0] ? ", " : "", place, ended);
    return VERDICT_NOT_REACHED;
}

static int tell(const struct way *ways, int status, bool has_findings)
{
    uint32_t other = ways ? ways_other(schedule, ways) : schedule->turns;

    if (other < schedule->turns && other < schedule->at)
        return tell_left(other, schedule->all[other].kind, ways[other].place, status);
    switch (schedule->outcome) {
    case SCHEDULE_MADE: return tell_made(status, has_findings);
    case SCHEDULE_LEFT: return tell_left(schedule->at, schedule->other.kind, ways ? ways[schedule->at].place : "", status);
    default: return tell_missed(status);
    }
}

int verdict_tell(int status, bool has_findings)
{
    struct way *ways = ways_read(schedule);
    int verdict = tell(ways, status, has_findings);

    free(ways);
    return verdict;
}
