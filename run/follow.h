/* --follow: each thread's next call waits for its turn in a schedule. A thread that has waited longer than the patience ends
 * this for all. Threads are only delayed, so what happens then may happen in any run. */
#ifndef BIM_RUN_FOLLOW_H
#define BIM_RUN_FOLLOW_H

#include "step.h"

#include <stdbool.h>
#include <stdint.h>

/* Reads the schedule that the environment names, if it names one. */
void follow_begin(void);
/* Waits for the turn of this thread's call. A call that may find nothing, and then isn't in turn, waits only for a part of the
 * patience (`asks`): a loop that asks must go on. It waits again, for its turn, once it has found something. Keeps errno. */
void follow_await(uint32_t number, enum step_kind kind, bool asks);
/* Returns whether the turn is a call that has done nothing, as one that is refused only now: it counts. */
bool follow_counts(const struct step *step, uint32_t number);
/* Ends the turn, if the call was in turn. */
void follow_end(const struct step *step, uint32_t number);
/* Called around the locking of a mutex, which waits for its turn if the schedule has one for it: a thread that waited for its call's
 * turn with the mutex would keep others from theirs. */
void follow_begin_lock(void);
void follow_end_lock(bool is_locked);
/* Notes that this thread begins or ends to wait for a file or a buffer. */
void follow_wait(bool begins);

#endif
