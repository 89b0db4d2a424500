/* This may run when there is little memory and no free descriptor, so it uses neither streams nor the heap. */
#define _GNU_SOURCE
#include "users.h"

#include "calls.h"
#include "guard.h"
#include "wire.h"

#include <dirent.h>
#include <stdio.h>
#include <stdlib.h>
#include <string.h>

/* How much is read of /proc at once, and of a process's state. */
enum { LIST_BYTES = 8192, STATE_BYTES = 512 };

/* The number of a process that only its pidfd names. */
enum { HAS_HANDLE = 1 };

/* Returns whether a process's environment names this service. */
static bool is_served(const struct service *service, pid_t number)
{
    char variable[sizeof service->socket + sizeof BIM_SERVICE + 1];
    int length = snprintf(variable, sizeof variable, BIM_SERVICE "=%s", service->socket);

    return process_has(number, "environ", variable, length + 1);
}

/* Guards of runs nested in this one end by themselves, with the processes that they guard. */
static bool is_guard(const char *name, const char *after)
{
    return after - name == (ptrdiff_t)strlen(GUARD_NAME) && memcmp(name, GUARD_NAME, after - name) == 0;
}

static bool is_user(const struct service *service, pid_t number)
{
    const struct shared_state *shared = service->shared;
    char text[STATE_BYTES + 1] = { 0 };
    const char *name, *after;
    int parent;

    if (number == getpid() || number == shared->tool.number || number == shared->server.number ||
        process_read(number, "stat", text, STATE_BYTES) < 0)
        return false;
    name = strchr(text, '(');
    after = strrchr(text, ')');
    if (!name || !after || is_guard(name + 1, after) || sscanf(after, ") %*c %d", &parent) != 1)
        return false;
    return (parent == shared->tool.number && process_goes_on(&shared->tool)) || is_served(service, number);
}

/* The process's number may have been reused before the pidfd was opened, so the process is checked again. */
static bool kill_user(const struct service *service, pid_t number)
{
    struct process process;
    bool killed;

    if (!is_user(service, number))
        return false;
    process = process_open(number);
    killed = is_user(service, number) && process_kill(&process);
    process_close(&process);
    return killed;
}

static bool kill_listed(const struct service *service, const char *entries, long length)
{
    bool found = false;

    for (long at = 0; at < length;) {
        const struct dirent64 *entry = (const struct dirent64 *)(entries + at);
        int number = atoi(entry->d_name);

        if (number > 0)
            found |= kill_user(service, number);
        at += entry->d_reclen;
    }
    return found;
}

static bool kill_all_listed(const struct service *service)
{
    static _Alignas(struct dirent64) char entries[LIST_BYTES];
    int folder = open("/proc", O_RDONLY | O_DIRECTORY | O_CLOEXEC);
    bool found = false;
    long length;

    if (folder < 0)
        return false;
    while ((length = syscall(SYS_getdents64, folder, entries, sizeof entries)) > 0)
        found |= kill_listed(service, entries, length);
    call_close(folder);
    return found;
}

static bool kill_clients(const struct shared_state *shared)
{
    bool found = false;

    for (int file = 0; file < shared->above && file < NOTED_FILES; file++)
        if (shared->is_client[file])
            found |= process_kill(&(struct process){ HAS_HANDLE, file });
    return found;
}

bool users_kill(const struct service *service)
{
    bool found = process_kill(&service->shared->program);

    found |= kill_clients(service->shared);
    found |= kill_all_listed(service);
    return found;
}
