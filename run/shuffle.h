/* Injected delays (--shuffle): a thread pauses before it asks, after it is answered and after it is woken, as if the
 * scheduler had preempted it. The seed determines which of these moments are pauses. */
#ifndef BIM_RUN_SHUFFLE_H
#define BIM_RUN_SHUFFLE_H

#include <stdbool.h>
#include <stdint.h>

bool shuffle_is_on(void);
/* Reads the seed from the environment, if there is one. */
void shuffle_begin(void);
/* Pauses or not. Without a seed it does nothing. Keeps errno. */
void shuffle_pause(void);
/* Call it in a new process, so that its pauses differ from its parent's. */
void shuffle_fork(void);
/* Draws a new thread's pauses, or returns 0 without a seed: on the thread that makes it, so that they don't depend on which thread
 * runs first. The new thread begins with them. */
uint64_t shuffle_draw(void);
void shuffle_start(uint64_t drawn);

#endif
