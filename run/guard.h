/* The guard of a run: a process that shares the descriptors of bimphlai-run and of its server, so that they stay open
 * when both are killed. The guard only watches these two. Once the server is lost, it kills the processes that use the
 * service, and keeps its descriptors open for the processes that hold the other ends. */
#ifndef BIM_RUN_GUARD_H
#define BIM_RUN_GUARD_H

#include "service.h"

/* The guard has a name of its own, so that `killall bimphlai-run` spares it. */
#define GUARD_NAME "fence-guard"

/* What the guard writes to bimphlai-run: it has taken its name; it has killed the processes of a lost service. */
enum { GUARD_IS_READY = 'G', GUARD_HAS_KILLED = 'K' };

/* Notes where the words of the command line are, which the guard overwrites to change its name. */
void guard_note_words(int count, char **words);
/* Starts a guard unless one is running. Returns 0 or an errno. */
int guard_start(struct service *service);

#endif
