/* Reads the schedule that --follow is to follow: the lines of a script, or the schedule that fencectl shows for a finding of a
 * plan. A call whose note has no line is made out of turn, as are the calls above a plan's clients; a mutex is then locked after
 * all turns. */
#ifndef BIM_RUN_TURNS_H
#define BIM_RUN_TURNS_H

#include "schedule.h"

/* Reads a schedule, which the caller frees. `finding` is the number of a plan's finding, or NULL for a script; `folder` is one for
 * temporary files. Returns NULL once standard error has the reason. */
struct schedule *turns_read(const char *path, const char *finding, const char *folder);

#endif
