/* Where a program that followed a schedule (--follow) made its calls. The notes above a schedule's lines say where in the source these
 * are to be; a program that looks at a flag may go another way, and then its call of the same number and kind is another one. */
#ifndef BIM_RUN_WAYS_H
#define BIM_RUN_WAYS_H

#include "schedule.h"

struct way {
    char place[SCHEDULE_PLACE]; /* as in a note, or "" if it isn't known */
};

/* Makes the empty file in which the preloaded library notes where it is called. Returns 0 or an errno. */
int ways_begin(const char *path);
/* Returns where the call of each turn was made, which the caller frees, or NULL. */
struct way *ways_read(const struct schedule *schedule);
/* Returns the first turn whose call was made at another place than its note says, or the number of turns. A note that names no line
 * of a source says no place. */
uint32_t ways_other(const struct schedule *schedule, const struct way *ways);

#endif
