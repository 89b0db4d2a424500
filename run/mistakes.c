#define _GNU_SOURCE
#include "mistakes.h"

#include "say.h"

#include <stdio.h>
#include <stdlib.h>
#include <string.h>

enum { NAME_ROOM = 512, UNJUDGED = -1 };

/* What a mistake's name is put together from. */
struct naming {
    const struct noted *plan;
    char text[NAME_ROOM];
};

/* Returns the call of a plan's line, or the next call below or above it. */
static const struct turn *call_near(const struct noted *plan, size_t line, int step)
{
    for (size_t at = line; at > 0 && at <= plan->lines; at += step)
        if (plan->of[at - 1].number)
            return &plan->of[at - 1];
    return NULL;
}

/* Adds a call: its kind and its place, or its thread if no place is known. */
static void add_call(struct naming *naming, const struct turn *call)
{
    size_t length = strlen(naming->text), left = sizeof naming->text - length;
    const char *comma = length ? "; " : "";
    char *to = naming->text + length;

    if (call && call->place[0])
        snprintf(to, left, "%s%s, %.119s", comma, noted_word(call->kind), call->place);
    else if (call)
        snprintf(to, left, "%s%s of thread %s", comma, noted_word(call->kind), call->thread.text);
}

/* Names the calls at which a schedule goes wrong: that of a wrong answer; those at which clients wait, of which a line above a call may
 * only order threads; and the last call, after which two clients race, with the one above the other client's access. */
static void name_mistake(struct naming *naming, const struct shown *shown)
{
    size_t last = 0;

    for (size_t i = 0; i < shown->count; i++) {
        const struct shown_line *line = &shown->lines[i];

        if (line->is == SHOWN_MADE)
            last = line->line;
        else
            add_call(naming, call_near(naming->plan, line->line, line->is == SHOWN_WAITING ? 1 : -1));
    }
    if (shown->is_race || !naming->text[0])
        add_call(naming, call_near(naming->plan, last, -1));
}

void mistakes_begin(struct mistakes *mistakes)
{
    *mistakes = (struct mistakes){ .end = &mistakes->first };
}

/* Returns a mistake by its name, or NULL. */
static struct mistake *find(const struct mistakes *mistakes, const char *name)
{
    for (struct mistake *mistake = mistakes->first; mistake; mistake = mistake->next)
        if (strcmp(mistake->name, name) == 0)
            return mistake;
    return NULL;
}

static struct mistake *add(struct mistakes *mistakes, const char *name)
{
    struct mistake *mistake = calloc(1, sizeof *mistake + strlen(name) + 1);

    if (!mistake)
        return NULL;
    mistake->verdict = UNJUDGED;
    strcpy(mistake->name, name);
    *mistakes->end = mistake;
    mistakes->end = &mistake->next;
    return mistake;
}

struct mistake *mistakes_find(struct mistakes *mistakes, const struct noted *plan, const struct shown *shown)
{
    struct naming naming = { .plan = plan };
    struct mistake *found;

    name_mistake(&naming, shown);
    found = find(mistakes, naming.text);
    return found ? found : add(mistakes, naming.text);
}

/* The graver, the higher. */
static int gravity(int verdict)
{
    switch (verdict) {
    case VERDICT_HAPPENS: return 3;
    case VERDICT_HARMLESS: return 2;
    default: return verdict != UNJUDGED;
    }
}

void mistakes_judge(struct mistake *mistake, int verdict)
{
    if (gravity(verdict) > gravity(mistake->verdict))
        mistake->verdict = verdict;
}

static const char *word_of(int verdict)
{
    switch (verdict) {
    case VERDICT_HAPPENS: return "happens";
    case VERDICT_HARMLESS: return "harmless";
    default: return "not made";
    }
}

bool mistakes_tell(const struct mistakes *mistakes)
{
    unsigned places = 0, happen = 0, harmless = 0;

    for (const struct mistake *mistake = mistakes->first; mistake; mistake = mistake->next) {
        say("%s: %s", mistake->name, word_of(mistake->verdict));
        places++;
        happen += mistake->verdict == VERDICT_HAPPENS;
        harmless += mistake->verdict == VERDICT_HARMLESS;
    }
    say("places: %u, happen: %u, harmless: %u, not made: %u", places, happen, harmless, places - happen - harmless);
    return happen > 0;
}

void mistakes_free(struct mistakes *mistakes)
{
    while (mistakes->first) {
        struct mistake *next = mistakes->first->next;

        free(mistakes->first);
        mistakes->first = next;
    }
}
