/* Messages on a Unix socket, each with at most one descriptor. */
#ifndef BIM_RUN_PASS_H
#define BIM_RUN_PASS_H

#include <stddef.h>
#include <sys/types.h>

/* Sends bytes, and a descriptor unless it is -1, as sendmsg(2) does. */
ssize_t pass_send(int socket, const void *bytes, size_t length, int passed, int how);
/* Receives a message, as recvmsg(2) does, and returns its length, also if it is longer than the room. `passed` becomes
 * its first descriptor, or -1. Closes all others. */
ssize_t pass_receive(int socket, void *bytes, size_t room, int *passed, int how);

#endif
