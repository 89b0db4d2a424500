/* The connection to the server: one for each process, made at its first request. */
#define _GNU_SOURCE
#include "calls.h"
#include "channel.h"
#include "kept.h"
#include "loss.h"
#include "numbers.h"
#include "pass.h"
#include "shim.h"

#include <errno.h>
#include <string.h>
#include <sys/un.h>

/* The process's own connection, used with the lock held. Without the lock, only the numbers are compared. */
static struct kept connection = KEPT_NONE, doorbell = KEPT_NONE;
static struct channel *channel; /* NULL without a channel: then all requests go by the socket */
static const struct bim_page *_Atomic page;

static const struct bim_page *get_page(void)
{
    return page;
}

static bool is_own(int file)
{
    return file >= 0 && (file == connection.number || file == doorbell.number);
}

static void leave(void)
{
    kept_close(&connection);
    kept_close(&doorbell);
    channel = NULL;
}

/* Another user may serve at the address of this user's former service. */
static bool is_served_by_user(int file)
{
    struct ucred server;
    socklen_t size = sizeof server;

    return getsockopt(file, SOL_SOCKET, SO_PEERCRED, &server, &size) == 0 && server.uid == geteuid();
}

/* Returns a new connection, or -1 with errno. */
static int join(void)
{
    struct sockaddr_un to = { .sun_family = AF_UNIX };
    int file = syscall(SYS_socket, AF_UNIX, SOCK_SEQPACKET | SOCK_CLOEXEC, 0);

    if (file < 0)
        return -1;
    strncpy(to.sun_path, shim_service(), sizeof to.sun_path - 1);
    while (syscall(SYS_connect, file, &to, sizeof to)) {
        if (errno == EINTR)
            continue;
        call_close(file);
        errno = ENOTCONN;
        return -1;
    }
    if (is_served_by_user(file))
        return file;
    call_close(file);
    errno = ENOTCONN;
    return -1;
}

/* Returns 0, ENOTCONN if the connection is no longer this process's, or an errno for lack of kernel memory. A service
 * that turns a process away may have closed the connection before, but has said why. */
static int send_request(int socket, const struct bim_request *request, int passed)
{
    while (pass_send(socket, request, sizeof *request, passed, 0) != (ssize_t)sizeof *request) {
        switch (errno) {
        case EINTR: continue;
        case EPIPE:
        case ECONNRESET: return 0;
        case EBADF: return ENOTCONN;
        case ENOMEM:
        case ENOBUFS:
        case ETOOMANYREFS: return ENOMEM;
        default: loss_end("the service doesn't answer any more");
        }
    }
    return 0;
}

/* The kernel reports a closed connection once as ECONNRESET, and then gives what was sent before. */
static int take_answer(int socket, struct bim_answer *answer, int *given)
{
    ssize_t length;

    while ((length = pass_receive(socket, answer, sizeof *answer, given, 0)) < 0 &&
           (errno == EINTR || errno == ECONNRESET)) {}
    if (length < (ssize_t)offsetof(struct bim_answer, row))
        loss_end("the service doesn't answer any more");
    /* The kernel drops a descriptor for which the process has no number left. */
    return answer->error ? answer->error : answer->gives && *given < 0 ? EMFILE : 0;
}

static int ask_by_socket(int socket, const struct bim_request *request, int passed, struct bim_answer *answer,
                         int *given)
{
    int error = send_request(socket, request, passed);

    return error ? error : take_answer(socket, answer, given);
}

/* Asks for a descriptor of this connection. Returns an errno: ENFILE if the service turns this process away. */
static int ask_for(enum bim_op op, int *given)
{
    struct bim_request request = { .op = op };
    struct bim_answer answer;

    return ask_by_socket(connection.number, &request, -1, &answer, given);
}

/* Keeps a descriptor with a number out of the program's way. Returns 0 or an errno. */
static int keep(struct kept *kept, int file, const struct rlimit *limit)
{
    int moved = numbers_move(file, numbers_of_link(limit), F_DUPFD_CLOEXEC);

    if (moved >= 0) {
        kept_set(kept, moved);
        return 0;
    }
    call_close(file);
    return EMFILE;
}

static int open_connection(const struct rlimit *limit)
{
    int joined = join();

    return joined < 0 ? errno : keep(&connection, joined, limit);
}

/* A child keeps its parent's page, since both have the same service. */
static int open_page(void)
{
    int memory, error = page ? EEXIST : ask_for(BIM_OP_HELLO, &memory);

    if (error)
        return error;
    page = page_open(memory);
    call_close(memory);
    return 0;
}

static int open_doorbell(const struct rlimit *limit)
{
    int bell, error = ask_for(BIM_OP_DOORBELL, &bell);

    return error ? error : keep(&doorbell, bell, limit);
}

static int open_channel(const struct rlimit *limit)
{
    int memory, error = ask_for(BIM_OP_CHANNEL, &memory);
    struct channel *opened;

    if (error)
        return error;
    opened = channel_open(memory);
    call_close(memory);
    if (!opened)
        return ENOMEM;
    error = open_doorbell(limit);
    if (error)
        channel_close(opened);
    else
        channel = opened;
    return error;
}

/* Connects. The page and the channel only save time, so the process does without them if they can't be had. */
static int prepare(struct own *own)
{
    struct rlimit limit;
    bool raised = numbers_borrow(&limit);
    int error = open_connection(&limit);

    (void)own;
    if (!error && (open_page() == ENFILE || open_channel(&limit) == ENFILE))
        error = ENFILE;
    if (raised)
        numbers_return(&limit);
    if (error)
        leave();
    return error;
}

/* Called while an answer is late. */
static void check(void)
{
    struct pollfd server = { connection.number, 0, 0 };

    if (call_poll(&server, 1, 0) == 1)
        loss_end("the service doesn't answer any more");
}

static bool gives_none(const struct bim_request *request)
{
    switch (request->op) {
    case BIM_OP_INC:
    case BIM_OP_INFO:
    case BIM_OP_GONE:
    case BIM_OP_TEST:
    case BIM_OP_WAIT: return true;
    case BIM_OP_MEMORY: return request->value == BIM_NO_PART;
    default: return false;
    }
}

/* Returns ENOTCONN if the program has closed the connection or the doorbell by a call that the library doesn't see. */
static int try_to_ask(const struct bim_request *request, int passed, struct bim_answer *answer, int *given)
{
    if (channel && gives_none(request)) {
        int server = page ? (int)atomic_load_explicit(&page->awake, memory_order_relaxed) - 1 : -1;

        if (!kept_is_there(&doorbell) || !channel_ask(channel, doorbell.number, server, request, answer, check))
            return ENOTCONN;
        if (!answer->gives)
            return answer->error;
    }
    return kept_is_there(&connection) ? ask_by_socket(connection.number, request, passed, answer, given) : ENOTCONN;
}

static int ask(const struct bim_request *request, int passed, struct bim_answer *answer, int *given)
{
    int error = try_to_ask(request, passed, answer, given);

    if (error != ENOTCONN)
        return error;
    leave();
    error = prepare(NULL);
    return error ? error : try_to_ask(request, passed, answer, given);
}

static int join_apart(void)
{
    struct rlimit limit;
    int socket = join();

    if (socket >= 0 || errno != EMFILE || !numbers_borrow(&limit))
        return socket;
    socket = join();
    numbers_return(&limit);
    return socket;
}

/* Uses a connection of its own for this request, since the thread with the lock may be using the process's
 * connection. */
static int ask_apart(const struct bim_request *request, int passed, struct bim_answer *answer, int *given)
{
    int socket = join_apart(), error;

    if (socket < 0)
        return errno;
    error = ask_by_socket(socket, request, passed, answer, given);
    call_close(socket);
    return error;
}

static int above_own(void)
{
    return (connection.number > doorbell.number ? connection.number : doorbell.number) + 1;
}

/* Returns whether bimphlai-run, its server or its guard is alive, which share a lock of the service's folder. If the kernel
 * has released an end of an object because all three have ended, it has dropped the lock before. */
static bool lives(void)
{
    char path[sizeof((struct sockaddr_un *)NULL)->sun_path];
    const char *socket = shim_service(), *name = strrchr(socket, '/');
    struct flock found = { .l_type = F_WRLCK, .l_whence = SEEK_SET };
    bool is_held;
    int folder;

    snprintf(path, sizeof path, "%.*s", name ? (int)(name - socket) : 0, socket);
    folder = numbers_open(path);
    is_held = folder >= 0 && syscall(SYS_fcntl, folder, F_GETLK, &found) == 0 && found.l_type != F_UNLCK;
    if (folder >= 0)
        call_close(folder);
    return is_held;
}

const struct way LINK = { prepare, ask, ask_apart, leave, is_own, above_own, true, NULL, get_page, lives };
