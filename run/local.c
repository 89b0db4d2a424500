/* The service in the process itself (--local). */
#define _GNU_SOURCE
#include "calls.h"
#include "loss.h"
#include "numbers.h"
#include "registry.h"
#include "shim.h"

#include <errno.h>
#include <limits.h>
#include <stdlib.h>
#include <string.h>
#include <sys/mman.h>

static struct registry registry;
static const struct own *own_of_registry;   /* says whether the registry is this process's */
static struct rlimit limit;                 /* the program's limit on descriptors */
static _Atomic int lowest = INT_MAX, above; /* range of the descriptors that the registry holds */
static bool is_crowded, is_raised;
static bool sigpipe_was_pending;
static sigset_t mask;

static bool is_open(void)
{
    return own_of_registry && own_of_registry->is_ready;
}

static const struct bim_page *get_page(void)
{
    return is_open() ? registry.page : NULL;
}

static bool is_trace(int file)
{
    return registry.trace && file == registry.trace->file;
}

/* Returns whether the registry holds a descriptor, which the program then can't close. */
static bool is_own(int file)
{
    uint64_t inode;

    if (file < lowest || !is_open())
        return false;
    return is_trace(file) || parts_hold(file) || endpoint_is_ours(file) ||
           endpoint_mark(file, &inode) == BIM_MEMORY_MARK;
}

static void begin_files(void)
{
    is_raised = is_crowded && numbers_borrow(&limit);
}

static void end_files(void)
{
    if (is_raised)
        numbers_return(&limit);
}

static bool may_give(int file)
{
    return !is_crowded || (rlim_t)file < limit.rlim_cur;
}

/* After an exec, no fence of a pending file or buffer signals any more. If our end closed, the file would seem
 * signalled, so our end stays open across the exec. */
static bool outlasts_exec(int file)
{
    uint64_t inode;
    enum bim_mark mark = endpoint_mark(file, &inode);

    return mark == BIM_FILE_MARK || mark == BIM_BUFFER_ENDPOINT_MARK;
}

static int place(int file)
{
    int moved;

    if (!is_crowded)
        getrlimit(RLIMIT_NOFILE, &limit);
    moved = numbers_move(file, numbers_of_registry(&limit, is_crowded), outlasts_exec(file) ? F_DUPFD : F_DUPFD_CLOEXEC);
    moved = moved < 0 ? file : moved;
    lowest = moved < lowest ? moved : lowest;
    above = moved >= above ? moved + 1 : above;
    return moved;
}

static bool make_room(struct registry *all)
{
    if (is_crowded || getrlimit(RLIMIT_NOFILE, &limit) || limit.rlim_cur >= limit.rlim_max)
        return false;
    is_crowded = true;
    begin_files();
    registry_place_all(all);
    end_files();
    return true;
}

/* The file's last reader may be gone: suppresses SIGPIPE. */
static void hold_sigpipe(void)
{
    sigset_t pipe, pending;

    sigemptyset(&pipe);
    sigaddset(&pipe, SIGPIPE);
    sigpending(&pending);
    sigpipe_was_pending = sigismember(&pending, SIGPIPE);
    pthread_sigmask(SIG_BLOCK, &pipe, &mask);
}

static void drop_sigpipe(void)
{
    static const struct timespec none;
    sigset_t pipe;

    sigemptyset(&pipe);
    sigaddset(&pipe, SIGPIPE);
    if (!sigpipe_was_pending)
        while (sigtimedwait(&pipe, NULL, &none) < 0 && errno == EINTR) {}
    pthread_sigmask(SIG_SETMASK, &mask, NULL);
}

/* The asking thread takes its answer before the next request is served. */
static bool owes_none(struct registry *all)
{
    (void)all;
    return false;
}

static const struct host HOST = { begin_files,  end_files,    place,    make_room, may_give,
                                  hold_sigpipe, drop_sigpipe, owes_none };

static int prepare(struct own *own)
{
    int error = registry_open(&registry, &HOST, getenv(BIM_TRACE));

    if (error)
        return error;
    /* No other process needs the page's descriptor. */
    call_close(registry.page_memory);
    own_of_registry = own;
    return 0;
}

/* An object with our mark that isn't in the registry belongs to another process. */
static bool is_foreign(const struct bim_request *request)
{
    return request->a != 0 && request->op != BIM_OP_GONE && !registry_find(&registry, request->a);
}

static int ask(const struct bim_request *request, int passed, struct bim_answer *answer, int *given)
{
    if (request->op == BIM_OP_TEXT || request->a == BIM_ANY)
        registry_sweep(&registry);
    registry_serve(&registry, request, passed, answer, given);
    if (answer->error == ENOTTY && is_foreign(request))
        loss_end("--local serves one process, and this descriptor is another's; run it without --local");
    /* A closing that wasn't noticed yet may have cancelled what seems pending. */
    if (request->op == BIM_OP_INFO && !answer->error && answer->status == BIM_IS_ACTIVE &&
        registry_sweep_timelines(&registry))
        registry_serve(&registry, request, passed, answer, given);
    return answer->error;
}

static void before_wait(void)
{
    registry_sweep_timelines(&registry);
}

/* The interrupted thread may be in the middle of a request, so the registry can't be used. */
static int ask_apart(const struct bim_request *request, int passed, struct bim_answer *answer, int *given)
{
    (void)request, (void)passed, (void)answer, (void)given;
    return EBUSY;
}

static void leave(void)
{
}

static int above_own(void)
{
    return above;
}

const struct way LOCAL = { prepare, ask, ask_apart, leave, is_own, above_own, false, before_wait, get_page, NULL };
