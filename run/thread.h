/* The threads of a run, by names that are equal in each run. A thread's name is its path of creation: `1` is the first
 * thread of the first process, and `1.2` the second thing that `1` made, threads and child processes counted together. The
 * first thread of a process has the process's name, and after an exec its name and numbers continue.
 *
 * A child process that was made neither by fork(3) nor by posix_spawn(3), as system(3) makes it, gets its name when it loads
 * the library, as the next thing that its parent's first thread made.
 *
 * Without BIM_THREADS in the environment no thread has a name, and all calls pass. */
#ifndef BIM_RUN_THREAD_H
#define BIM_RUN_THREAD_H

#include <pthread.h>
#include <stdbool.h>
#include <stdint.h>
#include <sys/types.h>

enum { THREAD_NAME_ROOM = 48 };

struct thread_name {
    char text[THREAD_NAME_ROOM]; /* empty if it isn't known */
};

/* What orders a thread's calls before or after another's. */
enum thread_event {
    THREAD_MAKES,  /* is about to make the thread or the child process `name` */
    THREAD_BEGINS, /* begins, as a new thread or process, or after an exec, and is called `name`; `routine` is what
                    * pthread_create or thrd_create was given, or NULL */
    THREAD_JOINS,  /* has joined the thread `name`, which has ended */
    THREAD_REAPS   /* has waited for the child `process`, which has ended */
};

struct thread_fact {
    enum thread_event event;
    const char *name;
    const void *routine;
    pid_t process;
};

/* Calls a function at each event, on its thread, from now on. Call it before thread_begin. */
void thread_listen(void (*listener)(const struct thread_fact *fact));
/* Gives names if an environment variable says so. */
void thread_begin(void);
bool thread_is_on(void);

/* Returns this thread's name. It is empty for a thread or a process whose making the library didn't see, and for one whose
 * name would be too long. */
const char *thread_name(void);
/* Returns the number of this thread's counted calls. */
uint32_t thread_calls(void);
/* Counts a call. Returns its number, from 1 on. */
uint32_t thread_count(void);
/* The same for the mutexes that this thread has locked. */
uint32_t thread_locks(void);
uint32_t thread_count_lock(void);

/* Draws the name of the next thing that this thread makes. */
struct thread_name thread_draw(void);
/* Begins a new thread, which got its name from its maker. */
void thread_start(const struct thread_name *name, const void *routine);
void thread_tell(enum thread_event event, const char *name, pid_t process);
/* Tells THREAD_REAPS. */
void thread_reap(pid_t process);
/* Tells it of all processes below this one that have been waited for by a call that doesn't say for which. */
void thread_reap_ended(void);
/* Called on the thread that forks, before the fork and in the child. */
void thread_before_fork(void);
void thread_in_child(void);

/* The names of threads that may be joined. */
void thread_keep(pthread_t thread, const struct thread_name *name);
struct thread_name thread_of(pthread_t thread);

#endif
