/* The calls of a plan's or a script's lines, by the notes above these: `# @1.2:3 PLACE` says that the line below is the third call
 * of the thread 1.2, and `# @1.2:L3 PLACE` that it is the third mutex that this thread locks. */
#ifndef BIM_RUN_NOTED_H
#define BIM_RUN_NOTED_H

#include "schedule.h"

#include <stdbool.h>
#include <stddef.h>

struct noted {
    struct turn *of; /* by the line, from 1 on, of the index line - 1; without a kind if the line is no call in turn */
    size_t lines;
    struct turn *free; /* the calls whose notes have no line, and those above a plan's clients; and all locks */
    size_t frees;
    bool is_plan;
};

/* Reads a plan or a script. Returns false once standard error has the reason. */
bool noted_read(struct noted *noted, const char *path);
void noted_free(struct noted *noted);
/* Adds a turn to an array, which the caller frees. Returns false if there is no memory. */
bool noted_add(struct turn **array, size_t *count, const struct turn *turn);
/* Returns the word of a plan's line for a kind of call. */
const char *noted_word(enum step_kind kind);

#endif
