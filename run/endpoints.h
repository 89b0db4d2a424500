/* Endpoints: the descriptors that represent objects, in the program and in the service.
 *
 * A timeline and a sync file are the read end of a pipe, and the service holds the write end. A byte in the pipe makes
 * the file readable for good, so the kernel's own poll, select and epoll report it. A timeline has such a byte from the
 * start. A buffer is a socket, and the service holds its peer: a byte sent to the buffer makes it readable, and taking
 * the bytes that it sent makes it writable. Once the last copy of a program's end is closed, in whatever process, the
 * service's end reports POLLERR or POLLHUP. The object's number is random and is kept in the inode, so only a process
 * that has a descriptor of the object can name the object. */
#ifndef BIM_RUN_ENDPOINTS_H
#define BIM_RUN_ENDPOINTS_H

#include "wire.h"

#include <stdbool.h>
#include <stdint.h>

struct endpoints {
    int theirs, ours;
    uint64_t inode; /* the object's number, kept in the inode */
};

/* Make a pair of endpoints marked with `mark`. Return 0 or an errno. */
int endpoints_pipe(struct endpoints *endpoints, enum bim_mark mark);
int endpoints_sockets(struct endpoints *endpoints);
void endpoints_close(struct endpoints *endpoints);

/* Returns whether all copies of the program's end are closed. */
bool endpoint_is_alone(int ours);
/* Returns the mark of a descriptor, or 0 if it isn't one of ours; stores the number in its inode. */
enum bim_mark endpoint_mark(int file, uint64_t *inode);

/* Returns whether a descriptor is an end that the service holds. */
bool endpoint_is_ours(int file);

/* Makes a file readable, at once and for good. Raises SIGPIPE if its last reader is gone, unless SIGPIPE is blocked. */
void endpoint_signal(int ours);
/* Set what poll reports for a buffer. Clearing readiness needs the program's end. Return 0, or an errno if the kernel
 * has no memory for that: then poll reports what it reported before. */
int endpoint_set_readable(int ours);
void endpoint_set_writable(int ours);
int endpoint_take_readable(int theirs);
int endpoint_take_writable(int theirs);

#endif
