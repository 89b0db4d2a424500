#define _GNU_SOURCE
#include "turns.h"

#include "explore.h"
#include "launch.h"
#include "noted.h"
#include "say.h"

#include <errno.h>
#include <stdio.h>
#include <stdlib.h>
#include <string.h>

/* What becomes a schedule. */
struct turns {
    struct turn *all;
    size_t count;
    bool is_race;
};

/* Adds a turn. A poll that found several files is one call with several lines: its turn is the last of these. */
static bool add_turn(struct turns *turns, const struct turn *turn)
{
    for (size_t i = 0; turn->kind == STEP_WAIT && i < turns->count; i++) {
        struct turn *before = turns->all + i;

        if (before->kind != STEP_WAIT || before->number != turn->number || strcmp(before->thread.text, turn->thread.text) != 0)
            continue;
        memmove(before, before + 1, (turns->count - i - 1) * sizeof *before);
        turns->all[turns->count - 1] = *turn;
        return true;
    }
    return noted_add(&turns->all, &turns->count, turn);
}

/* Adds the calls that a shown schedule makes, by their lines in the plan. */
static bool add_shown(struct turns *turns, const struct noted *plan, const struct shown *shown)
{
    turns->is_race = shown->is_race;
    for (size_t i = 0; i < shown->count; i++) {
        size_t at = shown->lines[i].line;

        if (shown->lines[i].is == SHOWN_MADE && at <= plan->lines && plan->of[at - 1].kind &&
            !add_turn(turns, &plan->of[at - 1]))
            return false;
    }
    return true;
}

/* Has a plan explored, and reads the schedule of a finding. Returns false once standard error has the reason. */
static bool show(struct shown *shown, const char *path, const char *finding, const char *folder)
{
    bool is_explored = explore(path, folder, false) <= EXPLORE_BOUND;
    int error = is_explored ? explore_read(shown, folder, strtoul(finding, NULL, 10)) : 0;

    explore_remove(folder);
    if (!is_explored)
        say("fencectl can't explore %s", path);
    else if (error == ENOENT)
        say("fencectl explore shows no schedule %s of %s", finding, path);
    else if (error)
        fault(path, error);
    return is_explored && !error;
}

/* Reads the schedule of a plan's finding. Returns false once standard error has the reason. */
static bool read_finding(struct turns *turns, const struct noted *plan, const char *path, const char *finding, const char *folder)
{
    struct shown shown = { NULL, 0, false };
    bool is_read = show(&shown, path, finding, folder) && add_shown(turns, plan, &shown);

    explore_free(&shown);
    return is_read;
}

/* Adds the calls of a script's lines, in their order. */
static bool read_script(struct turns *turns, const struct noted *script, const char *path)
{
    if (script->is_plan) {
        say("%s is a plan: name the number of a schedule behind it", path);
        return false;
    }
    for (size_t i = 0; i < script->lines; i++)
        if (script->of[i].kind && !add_turn(turns, &script->of[i]))
            return false;
    return true;
}

/* Makes a schedule of calls in turn and others. */
static struct schedule *schedule_of(const struct turns *turns, const struct noted *text)
{
    struct schedule *schedule = calloc(1, sizeof *schedule + (turns->count + text->frees) * sizeof *turns->all);

    if (!schedule)
        return NULL;
    schedule->turns = turns->count;
    schedule->others = text->frees;
    schedule->is_race = turns->is_race;
    memcpy(schedule->all, turns->all, turns->count * sizeof *turns->all);
    if (text->frees > 0)
        memcpy(schedule->all + turns->count, text->free, text->frees * sizeof *text->free);
    return schedule;
}

struct schedule *turns_read(const char *path, const char *finding, const char *folder)
{
    struct schedule *schedule = NULL;
    struct turns turns = { NULL, 0, false };
    struct noted text;

    if (noted_read(&text, path) &&
        (finding ? read_finding(&turns, &text, path, finding, folder) : read_script(&turns, &text, path))) {
        if (turns.count > 0)
            schedule = schedule_of(&turns, &text);
        else
            say("%s has no call to follow: each has a note as `# @1.2:3`", path);
    }
    free(turns.all);
    noted_free(&text);
    return schedule;
}
