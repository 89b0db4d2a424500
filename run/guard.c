#define _GNU_SOURCE
#include "guard.h"

#include "calls.h"
#include "folder.h"
#include "users.h"

#include <errno.h>
#include <string.h>
#include <sys/prctl.h>

/* How often processes that still run are killed, and the time between. */
enum { PASSES = 2000, MILLISECONDS_TO_DIE = 1 };
enum { MILLISECONDS_BETWEEN_LOOKS = 100 };

static char *words_begin;
static size_t words_length;

void guard_note_words(int count, char **words)
{
    words_begin = words[0];
    words_length = count > 0 ? words[count - 1] + strlen(words[count - 1]) - words[0] : 0;
}

static void rename_words(void)
{
    size_t length = words_length < sizeof GUARD_NAME ? words_length : sizeof GUARD_NAME;

    if (length == 0)
        return;
    memset(words_begin, 0, words_length);
    memcpy(words_begin, GUARD_NAME, length);
}

static void become_guard(void)
{
    sigset_t all;

    sigfillset(&all);
    sigprocmask(SIG_BLOCK, &all, NULL);
    process_raise_limit();
    setsid();
    prctl(PR_SET_NAME, GUARD_NAME);
    rename_words();
    /* The current folder stays removable and unmountable. */
    if (chdir("/")) {}
}

struct guard {
    struct service *service;
    bool has_tool; /* bimphlai-run is running */
};

/* Replaces the streams of bimphlai-run by /dev/null, so that their readers see the end once bimphlai-run has ended. */
static void leave_streams(const struct service *service)
{
    for (int file = STDIN_FILENO; file <= STDERR_FILENO; file++)
        syscall(SYS_dup3, service->nowhere, file, 0);
}

/* Waits until the process with this pidfd ends, bimphlai-run ends, or `milliseconds` pass. */
static void look(struct guard *guard, int handle, int milliseconds)
{
    const struct process *tool = &guard->service->shared->tool;
    struct pollfd ends[] = { { handle, POLLIN, 0 }, { guard->has_tool ? tool->handle : -1, POLLIN, 0 } };

    call_poll(ends, 2, milliseconds);
    if (!guard->has_tool || process_goes_on(tool))
        return;
    guard->has_tool = false;
    leave_streams(guard->service);
}

static void watch(struct guard *guard)
{
    const struct shared_state *shared = guard->service->shared;
    bool has_handles = shared->server.handle >= 0 && shared->tool.handle >= 0;

    while (process_goes_on(&shared->server))
        look(guard, shared->server.handle, has_handles ? -1 : MILLISECONDS_BETWEEN_LOOKS);
}

/* A process that can't end, as in a call of a driver that hangs, can't observe anything either. */
static void kill_users(struct guard *guard)
{
    for (int passes = 0; passes < PASSES && users_kill(guard->service); passes++)
        look(guard, -1, MILLISECONDS_TO_DIE);
}

/* A process that can't be killed, or isn't known, blocks forever. */
static void hold(struct guard *guard)
{
    while (service_held_endpoints(guard->service) > 0) {
        look(guard, -1, MILLISECONDS_BETWEEN_LOOKS);
        users_kill(guard->service);
    }
    folder_remove(guard->service->folder);
}

static void tell(const struct service *service, char what)
{
    while (call_write(service->said, &what, 1) < 0 && errno == EINTR) {}
}

static void end_users(struct guard *guard)
{
    service_free_spares(guard->service);
    kill_users(guard);
    if (service_held_endpoints(guard->service) == 0)
        folder_remove(guard->service->folder);
    tell(guard->service, GUARD_HAS_KILLED);
    hold(guard);
}

int guard_start(struct service *service)
{
    struct guard guard = { service, true };
    pid_t number;

    if (process_goes_on(&service->shared->guard))
        return 0;
    process_close(&service->shared->guard);
    number = service_share();
    if (number < 0)
        return errno;
    if (number > 0) {
        service->shared->guard = process_open(number);
        return 0;
    }
    become_guard();
    tell(service, GUARD_IS_READY);
    watch(&guard);
    if (!service->shared->has_ended)
        end_users(&guard);
    _exit(0);
}
