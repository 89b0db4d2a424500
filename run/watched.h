/* Which files and buffers a process's epoll sets watch: an event of epoll doesn't say which file it is of, but has what the program
 * gave for it. Only if steps are recorded or followed. */
#ifndef BIM_RUN_WATCHED_H
#define BIM_RUN_WATCHED_H

#include "step.h"

#include <stdbool.h>
#include <stdint.h>
#include <sys/epoll.h>

/* Notes a call of epoll_ctl(2) that has succeeded. */
void watched_note(int set, int how, int file, const struct epoll_event *event);
/* Returns whether a set watches a file or a buffer. */
bool watched_has(int set);
/* Stores the files and buffers that events found ready, at most `room`. Returns how many, or -1 if an event may be of several. */
int watched_find(int set, const struct epoll_event *events, int count, struct step_found *found, int room);

#endif
