#define _GNU_SOURCE
#include "processes.h"

#include "calls.h"
#include "wire.h"

#include <errno.h>
#include <signal.h>
#include <stdio.h>
#include <stdlib.h>
#include <string.h>
#include <sys/mman.h>

enum { MOST = 4096 };

struct processes {
    _Atomic uint32_t count;
    struct thread first[MOST];
};

int processes_make(const char *path)
{
    int file = open(path, O_RDWR | O_CREAT | O_EXCL | O_CLOEXEC, 0600);
    int error = file < 0 || ftruncate(file, sizeof(struct processes)) ? errno : 0;

    if (file >= 0)
        call_close(file);
    return error;
}

struct processes *processes_open(const char *path)
{
    int file = syscall(SYS_openat, AT_FDCWD, path, O_RDWR | O_CLOEXEC, 0);
    void *memory = MAP_FAILED;

    if (file >= 0) {
        memory = mmap(NULL, sizeof(struct processes), PROT_READ | PROT_WRITE, MAP_SHARED, file, 0);
        call_close(file);
    }
    return memory == MAP_FAILED ? NULL : memory;
}

static uint32_t count_of(const struct processes *processes)
{
    uint32_t count = processes->count;

    return count < MOST ? count : MOST;
}

struct thread *processes_add(struct processes *processes, const struct thread_name *name)
{
    uint32_t at = processes->count < MOST ? processes->count++ : MOST;

    if (at >= MOST)
        return NULL;
    processes->first[at].name = *name;
    processes->first[at].process = getpid();
    return &processes->first[at];
}

/* Returns the last entry of a process, or NULL. */
static struct thread *find(struct processes *processes, pid_t process)
{
    for (uint32_t at = count_of(processes); at > 0; at--)
        if (processes->first[at - 1].process == process)
            return &processes->first[at - 1];
    return NULL;
}

static bool has_name(const struct processes *processes, const char *name)
{
    for (uint32_t at = 0; at < count_of(processes); at++)
        if (strcmp(processes->first[at].name.text, name) == 0)
            return true;
    return false;
}

void thread_name_child(struct thread_name *name, struct thread *maker)
{
    int length = snprintf(name->text, sizeof name->text, "%s.%u", maker->name.text, ++maker->children);

    if (!maker->name.text[0] || length >= (int)sizeof name->text)
        name->text[0] = 0;
}

void processes_reap(struct processes *processes, pid_t process)
{
    struct thread *ended = find(processes, process);

    if (ended)
        ended->is_reaped = true;
}

/* Returns whether a process was made by another one, or by what that made. */
static bool is_below(const struct thread *process, const struct thread *above)
{
    size_t length = strlen(above->name.text);

    return length > 0 && strncmp(process->name.text, above->name.text, length) == 0 && process->name.text[length] == '.';
}

pid_t processes_ended(struct processes *processes)
{
    const struct thread *own = find(processes, getpid());

    for (uint32_t at = 0; own && at < count_of(processes); at++) {
        struct thread *process = &processes->first[at];

        if (process->is_reaped || !is_below(process, own) || kill(process->process, 0) == 0 || errno != ESRCH)
            continue;
        process->is_reaped = true;
        return process->process;
    }
    return 0;
}

/* Finds the name of a new process. Its children inherit the environment too, whose name is then taken. */
static void name_process(struct processes *processes, struct thread_name *name)
{
    const char *given = getenv(BIM_THREAD);
    struct thread *parent = find(processes, getppid());

    if (processes->count == 0)
        strcpy(name->text, "1");
    else if (given && strlen(given) < sizeof name->text && !has_name(processes, given))
        strcpy(name->text, given);
    else if (parent)
        thread_name_child(name, parent);
}

struct thread *processes_enter(struct processes *processes)
{
    struct thread *own = find(processes, getpid());
    struct thread_name name = { "" };

    if (own)
        return own;
    name_process(processes, &name);
    return processes_add(processes, &name);
}
