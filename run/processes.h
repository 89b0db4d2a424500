/* The processes of a run, in a file that all of them share: their names, and their first threads' numbers, which an exec keeps.
 * An entry is written once, except for its numbers, which only its process changes; a process's last entry is its own. */
#ifndef BIM_RUN_PROCESSES_H
#define BIM_RUN_PROCESSES_H

#include "thread.h"

#include <stdatomic.h>

/* A thread with its numbers. */
struct thread {
    _Atomic pid_t process;
    uint32_t calls, locks;      /* that were counted */
    _Atomic uint32_t children;  /* that were made: threads and processes */
    struct thread_name name;
    _Atomic bool is_reaped; /* of a process: one that made it knows that it has ended */
};

/* Makes the file. Returns 0 or an errno. */
int processes_make(const char *path);
/* Returns the processes of a file, or NULL. */
struct processes *processes_open(const char *path);
/* Adds this process. Returns its first thread, or NULL if there are too many processes. */
struct thread *processes_add(struct processes *processes, const struct thread_name *name);
/* Returns the first thread of this process, which has just loaded the library: it goes on after an exec, or is added, with the
 * name that the environment has for it, or as a child of its parent. */
struct thread *processes_enter(struct processes *processes);

/* Notes that a process has ended. */
void processes_reap(struct processes *processes, pid_t process);
/* Notes that a process below this one has ended, one that was waited for. Returns it, or 0 if there is none. */
pid_t processes_ended(struct processes *processes);

/* Stores the name of the next thing that a thread makes. */
void thread_name_child(struct thread_name *name, struct thread *maker);

#endif
