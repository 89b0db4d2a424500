/* Records what this process's threads do, for a plan (--plan): their steps, with the calls that led there, what orders them, and
 * where the program and its libraries are. The log's other writer is the service (settle.c). */
#ifndef BIM_RUN_RECORDER_H
#define BIM_RUN_RECORDER_H

#include "log.h"

#include <stdbool.h>
#include <stdint.h>

/* Begins if an environment variable names the log. */
void recorder_begin(void);
bool recorder_is_on(void);

/* An order of threads: what was done before a release is done once another thread's acquisition of the object has returned. Both
 * keep errno. `number` says which mutex of its thread it is that a call locks, or is 0. */
void recorder_release(enum log_order kind, uint64_t object);
void recorder_acquire(enum log_order kind, uint64_t object, uint32_t number);
/* Bytes that are sent, or were received, by a pipe or a socket. */
void recorder_send(int file);
void recorder_receive(int file);
/* A pair of sockets was made. */
void recorder_pair(const int files[2]);
/* Notes what no plan can have. */
void recorder_lack(enum log_lack what);

#endif
