/* Direct calls (--direct): system calls that a program makes without the C library. A seccomp filter turns them into
 * SIGSYS, and the handler of that signal serves them. */
#ifndef BIM_RUN_DIRECT_H
#define BIM_RUN_DIRECT_H

#include <signal.h>
#include <stdbool.h>

/* Starts to serve direct calls if the environment asks for it. */
void direct_begin(void);
bool direct_is_on(void);
/* Returns the signals of `wanted` that a program may block, stored in `room` if they differ. */
const sigset_t *direct_may_block(const sigset_t *wanted, sigset_t *room);

#endif
