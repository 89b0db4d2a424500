#define _GNU_SOURCE
#include "thread.h"

#include "calls.h"
#include "lock.h"
#include "processes.h"
#include "shim.h"

#include <stdio.h>
#include <stdlib.h>
#include <string.h>

#define OF_THREAD static __thread __attribute__((tls_model("initial-exec")))

static struct processes *processes; /* NULL if no names are given */
static void (*listener)(const struct thread_fact *fact);
OF_THREAD struct thread self;       /* of a thread that isn't its process's first */
OF_THREAD struct thread *thread;    /* NULL if its making wasn't seen */
OF_THREAD struct thread_name child; /* of the thread that forks */

void thread_listen(void (*to)(const struct thread_fact *fact))
{
    listener = to;
}

static void tell(const struct thread_fact *fact)
{
    if (processes && listener)
        listener(fact);
}

void thread_tell(enum thread_event event, const char *name, pid_t process)
{
    tell(&(struct thread_fact){ event, name, NULL, process });
}

void thread_reap(pid_t process)
{
    if (processes)
        processes_reap(processes, process);
    thread_tell(THREAD_REAPS, "", process);
}

void thread_reap_ended(void)
{
    pid_t process;

    while (processes && (process = processes_ended(processes)) > 0)
        thread_tell(THREAD_REAPS, "", process);
}

/* Becomes the first thread of a process. */
static void begin_process(struct thread *first)
{
    thread = first;
    thread_tell(THREAD_BEGINS, thread_name(), 0);
}

void thread_begin(void)
{
    const char *path = getenv(BIM_THREADS);

    processes = path ? processes_open(path) : NULL;
    if (processes)
        begin_process(processes_enter(processes));
}

bool thread_is_on(void)
{
    return processes;
}

/* A child that was made by a system call has its parent's memory, but isn't the parent's thread. */
static bool is_known(void)
{
    return thread && thread->process == getpid();
}

const char *thread_name(void)
{
    return is_known() ? thread->name.text : "";
}

uint32_t thread_calls(void)
{
    return is_known() ? thread->calls : 0;
}

uint32_t thread_count(void)
{
    return is_known() ? ++thread->calls : 0;
}

uint32_t thread_locks(void)
{
    return is_known() ? thread->locks : 0;
}

uint32_t thread_count_lock(void)
{
    return is_known() ? ++thread->locks : 0;
}

struct thread_name thread_draw(void)
{
    struct thread_name name = { "" };

    if (is_known())
        thread_name_child(&name, thread);
    thread_tell(THREAD_MAKES, name.text, 0);
    return name;
}

void thread_start(const struct thread_name *name, const void *routine)
{
    self = (struct thread){ .process = getpid(), .name = *name };
    thread = &self;
    tell(&(struct thread_fact){ THREAD_BEGINS, thread_name(), routine, 0 });
}

void thread_before_fork(void)
{
    if (processes)
        child = thread_draw();
}

/* The name of a joinable thread. */
struct kept {
    struct kept *next;
    pthread_t thread;
    struct thread_name name;
};

static struct kept *kept;
static struct lock lock;

void thread_in_child(void)
{
    lock = (struct lock){ NULL };
    if (processes)
        begin_process(processes_add(processes, &child));
}

/* Takes a thread out of the list. */
static struct kept *take(pthread_t of)
{
    for (struct kept **at = &kept; *at; at = &(*at)->next)
        if (pthread_equal((*at)->thread, of)) {
            struct kept *found = *at;

            *at = found->next;
            return found;
        }
    return NULL;
}

/* A thread that was detached leaves its name, until a new thread has its handle. */
void thread_keep(pthread_t of, const struct thread_name *name)
{
    struct waiter waiter;
    struct kept *entry;

    lock_take(&lock, &waiter);
    entry = take(of);
    entry = entry ? entry : malloc(sizeof *entry);
    if (entry) {
        *entry = (struct kept){ kept, of, *name };
        kept = entry;
    }
    lock_give(&lock, &waiter);
}

struct thread_name thread_of(pthread_t of)
{
    struct thread_name name = { "" };
    struct waiter waiter;

    lock_take(&lock, &waiter);
    for (const struct kept *at = kept; at; at = at->next)
        if (pthread_equal(at->thread, of))
            name = at->name;
    lock_give(&lock, &waiter);
    return name;
}
