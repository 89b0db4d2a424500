/* Handles of other processes: pidfds, which never come to mean another process. Kernels before Linux 5.3 have none;
 * there the process's number is used. */
#ifndef BIM_RUN_PROCESS_H
#define BIM_RUN_PROCESS_H

#include <poll.h>
#include <stdbool.h>
#include <sys/types.h>

struct process {
    pid_t number; /* 0 if there is none */
    int handle;   /* a pidfd, readable once the process has ended, or -1 */
};

/* Opens a handle, which the caller has to close. Opens none under BIM_PLAIN_FORK, since valgrind doesn't know
 * pidfd_open. */
struct process process_open(pid_t number);
void process_close(struct process *process);
/* Returns whether a process is running. The process must not have been reaped yet. */
bool process_goes_on(const struct process *process);
/* Kills a running process. Returns false if there was none that could be killed. */
bool process_kill(const struct process *process);
/* Returns the pollfd that reports the end of a process. */
struct pollfd process_end(const struct process *process);
/* Raises this process's own limit on descriptors to its maximum. */
void process_raise_limit(void);
/* Reads a file of a process in /proc. Returns its length, or -1 if it can't be read. */
ssize_t process_read(pid_t number, const char *name, char *text, size_t room);
/* Returns whether a file of a process in /proc, of any length, has these bytes. There are fewer than 4,096. */
bool process_has(pid_t number, const char *name, const char *bytes, size_t length);

#endif
