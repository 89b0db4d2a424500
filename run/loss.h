/* The end of a process whose service is lost. The kernel reports the hang-up of a file whose other end is closed as it
 * reports a signal, and only the service has the other ends. So the library looks at each hang-up before the program
 * sees it, and ends the process unless the service is alive or the hang-up is another file's. */
#ifndef BIM_RUN_LOSS_H
#define BIM_RUN_LOSS_H

#include <poll.h>

/* Notes which file standard error is. */
void loss_begin(void);
/* Ends the process with a message, rather than let it continue on state known to be wrong. */
_Noreturn void loss_end(const char *why);
_Noreturn void loss_of_service(void);

/* Look at what a poll reported, and at an epoll set that reported a hang-up. */
void loss_look(const struct pollfd *files, nfds_t count);
void loss_look_at_set(int set);

#endif
