#define _GNU_SOURCE
#include "noted.h"

#include "launch.h"

#include <errno.h>
#include <stdio.h>
#include <stdlib.h>
#include <string.h>

static const char *const WORDS[] = {
    [STEP_TIMELINE] = "timeline", [STEP_BUFFER] = "buffer", [STEP_FENCE] = "fence",   [STEP_MERGE] = "merge",
    [STEP_EXPORT] = "export",     [STEP_IMPORT] = "import", [STEP_INC] = "inc",       [STEP_WAIT] = "wait",
    [STEP_INFO] = "info",         [STEP_TEST] = "test",     [STEP_SHUT] = "shut",
    [STEP_LOCK] = "lock",
};
static const size_t KINDS = sizeof WORDS / sizeof WORDS[0];

const char *noted_word(enum step_kind kind)
{
    return kind > 0 && kind < KINDS ? WORDS[kind] : "?";
}

/* Returns the kind of a line's call, or 0. */
static enum step_kind kind_of(const char *line)
{
    size_t length = strcspn(line, " ");

    for (size_t kind = 1; kind < STEP_LOCK; kind++)
        if (strlen(WORDS[kind]) == length && strncmp(line, WORDS[kind], length) == 0)
            return kind;
    return 0;
}

/* Reads the call, or the lock, of a note. Returns whether the line is such a note. */
static bool read_note(const char *line, struct turn *turn)
{
    char thread[THREAD_NAME_ROOM];
    int end = 0, time = 0;

    *turn = (struct turn){ .number = 0 };
    if (sscanf(line, "# @%47[0-9.]:L%u%n", thread, &turn->number, &end) == 2)
        turn->kind = STEP_LOCK;
    else if (sscanf(line, "# @%47[0-9.]:%u%n", thread, &turn->number, &end) != 2)
        return false;
    sscanf(line + end, " +%*f ms%n", &time);
    end += time;
    end += line[end] == ' ';
    strcpy(turn->thread.text, thread);
    snprintf(turn->place, sizeof turn->place, "%s", line + end);
    return true;
}

/* Returns the array with room for one more, of which every power of 2 is filled before it grows, or NULL. */
static void *with_room(void *array, size_t count, size_t size)
{
    return (count & (count - 1)) == 0 ? realloc(array, (count ? 2 * count : 1) * size) : array;
}

bool noted_add(struct turn **array, size_t *count, const struct turn *turn)
{
    struct turn *more = with_room(*array, *count, sizeof *turn);

    if (!more)
        return false;
    *array = more;
    more[(*count)++] = *turn;
    return true;
}

/* Takes a line: `pending` is the call of the note above it, if its kind is unknown yet. */
static bool take_line(struct noted *noted, const char *line, struct turn *pending)
{
    struct turn none = { .number = 0 }, read, call = none;
    bool is_note = read_note(line, &read);

    noted->is_plan |= strncmp(line, "#client ", 8) == 0;
    if (line[0] && line[0] != '#' && pending->number) {
        call = *pending;
        call.kind = call.kind ? call.kind : kind_of(line);
        *pending = none;
    }
    if (is_note && pending->number && !noted_add(&noted->free, &noted->frees, pending))
        return false;
    if (is_note)
        *pending = read;
    return noted_add(&noted->of, &noted->lines, &call);
}

/* Makes the calls above a plan's clients free, and those of lines that are no calls. Each lock is among these too: if it has no turn,
 * it is taken once the schedule has ended. */
static bool free_others(struct noted *noted, size_t first_client)
{
    for (size_t i = 0; i < noted->lines; i++) {
        struct turn *call = &noted->of[i];
        bool is_in_turn = call->kind && i >= first_client;

        if (!call->number || (is_in_turn && call->kind != STEP_LOCK))
            continue;
        if (!noted_add(&noted->free, &noted->frees, call))
            return false;
        call->kind = is_in_turn ? call->kind : 0;
    }
    return true;
}

static bool read_lines(struct noted *noted, FILE *file)
{
    struct turn pending = { .number = 0 };
    size_t room = 0, first_client = 0;
    char *line = NULL;
    bool is_read = true;

    while (is_read && getline(&line, &room, file) >= 0) {
        bool was_plan = noted->is_plan;

        line[strcspn(line, "\n")] = 0;
        is_read = take_line(noted, line, &pending);
        if (noted->is_plan && !was_plan)
            first_client = noted->lines;
    }
    free(line);
    is_read = is_read && !ferror(file) && (!pending.number || noted_add(&noted->free, &noted->frees, &pending));
    return is_read && free_others(noted, first_client);
}

bool noted_read(struct noted *noted, const char *path)
{
    FILE *file = fopen(path, "re");
    bool is_read;

    *noted = (struct noted){ .lines = 0 };
    if (!file)
        return fault(path, errno), false;
    is_read = read_lines(noted, file);
    if (!is_read)
        fault(path, ENOMEM);
    fclose(file);
    return is_read;
}

void noted_free(struct noted *noted)
{
    free(noted->of);
    free(noted->free);
}
