#define _GNU_SOURCE
#include "service.h"

#include "calls.h"
#include "endpoints.h"
#include "folder.h"
#include "guard.h"

#include <errno.h>
#include <stdio.h>
#include <sched.h>
#include <stdlib.h>
#include <string.h>
#include <sys/mman.h>
#include <sys/socket.h>
#include <sys/un.h>

/* The backlog of connections; and how many descriptors a killed server may have had above the last that it noted. */
enum { WAITING = 128, NOT_NOTED = 64 };

/* The socket is in a folder that only this user may enter, and only this user may connect. */
static int make_socket(struct service *service)
{
    struct sockaddr_un at = { .sun_family = AF_UNIX };
    mode_t mask = umask(0177);
    int error;

    strcpy(at.sun_path, service->socket);
    service->listener = socket(AF_UNIX, SOCK_SEQPACKET | SOCK_CLOEXEC, 0);
    error = service->listener < 0 || bind(service->listener, (struct sockaddr *)&at, sizeof at) ||
            listen(service->listener, WAITING);
    error = error ? errno : 0;
    umask(mask);
    return error;
}

static int make_pipe(int *reads, int *writes)
{
    int pair[2];

    if (pipe2(pair, O_CLOEXEC | O_NONBLOCK))
        return errno;
    *reads = pair[0];
    *writes = pair[1];
    return 0;
}

static int make_shared_state(struct service *service)
{
    service->shared = mmap(NULL, sizeof *service->shared, PROT_READ | PROT_WRITE, MAP_SHARED | MAP_ANONYMOUS, -1, 0);
    if (service->shared == MAP_FAILED)
        return errno;
    service->shared->tool = process_open(getpid());
    return 0;
}

static int open_spares(struct service *service)
{
    service->nowhere = open("/dev/null", O_RDWR | O_CLOEXEC);
    for (int i = 0; i < SPARES; i++)
        service->spares[i] = call_dup_from(service->nowhere, 0);
    return service->spares[SPARES - 1] < 0 ? errno : 0;
}

int service_open(struct service *service)
{
    int error = folder_make(service->folder, sizeof service->folder, &service->lock);

    if (error)
        return error;
    snprintf(service->socket, sizeof service->socket, "%s/" FOLDER_SOCKET, service->folder);
    error = make_socket(service);
    if (!error)
        error = make_pipe(&service->hears, &service->said);
    if (!error)
        error = make_pipe(&service->obeys, &service->orders);
    if (!error)
        error = open_spares(service);
    if (!error)
        error = make_shared_state(service);
    if (error)
        service_remove(service);
    return error;
}

void service_free_spares(struct service *service)
{
    for (int i = 0; i < SPARES; i++)
        if (service->spares[i] >= 0)
            call_close(service->spares[i]);
    memcpy(service->spares, (int[SPARES])NO_SPARES, sizeof service->spares);
}

void service_remove(struct service *service)
{
    const int opened[] = { service->listener, service->said,    service->hears, service->orders,
                           service->obeys,    service->nowhere, service->lock };

    folder_remove(service->folder);
    service_free_spares(service);
    for (size_t i = 0; i < sizeof opened / sizeof opened[0]; i++)
        if (opened[i] >= 0)
            call_close(opened[i]);
}

pid_t service_share(void)
{
#ifdef BIM_PLAIN_FORK
    return fork();
#else
    return syscall(SYS_clone, CLONE_FILES | SIGCHLD, 0, 0, 0, 0);
#endif
}

/* The service whose guard the server restarts once bimphlai-run has ended. */
static struct service *guarded;

static int start_guard(void)
{
    return guard_start(guarded);
}

int service_start(struct service *service, const char *trace)
{
    struct server_setup setup = { service->listener, service->obeys, service->said, service->folder,
                                  trace,             service->shared, start_guard };
    pid_t server;

    fflush(NULL);
    guarded = service;
    server = service_share();
    if (server < 0)
        return errno;
    if (server == 0) {
        setpgid(0, 0);
        _exit(server_run(&setup));
    }
    service->shared->server = process_open(server);
    return guard_start(service);
}

void service_end(const struct service *service)
{
    while (call_write(service->orders, "", 1) < 0 && errno == EINTR) {}
}

/* Calls `call` for each descriptor of the server's, and returns the sum of the results. Uses neither /proc nor a new
 * descriptor. */
static size_t for_each_file(size_t (*call)(const struct service *, int), const struct service *service)
{
    size_t sum = 0;

    for (int file = 0; file < service->shared->above + NOT_NOTED; file++)
        sum += call(service, file);
    return sum;
}

static size_t is_endpoint(const struct service *service, int file)
{
    (void)service;
    return endpoint_is_ours(file);
}

static size_t is_held(const struct service *service, int file)
{
    (void)service;
    return endpoint_is_ours(file) && !endpoint_is_alone(file);
}

static bool is_connection(const struct service *service, int file)
{
    struct sockaddr_un name = { .sun_path = "" };
    socklen_t size = sizeof name - 1;

    return getsockname(file, (struct sockaddr *)&name, &size) == 0 && name.sun_family == AF_UNIX &&
           strcmp(name.sun_path, service->socket) == 0;
}

/* Closes descriptors that the server was about to give, and connections, which may hold descriptors passed to it. */
static size_t close_theirs(const struct service *service, int file)
{
    uint64_t inode;

    if ((endpoint_mark(file, &inode) && !endpoint_is_ours(file)) || is_connection(service, file))
        call_close(file);
    return 0;
}

size_t service_endpoints(const struct service *service)
{
    return for_each_file(is_endpoint, service);
}

size_t service_held_endpoints(const struct service *service)
{
    for_each_file(close_theirs, service);
    return for_each_file(is_held, service);
}
