/* One loop serves all processes. Closings are reported by an epoll set of their own, so that all closings before a
 * request are done before it is answered. */
#define _GNU_SOURCE
#include "server.h"

#include "calls.h"
#include "clients.h"
#include "folder.h"

#include <errno.h>
#include <stdio.h>
#include <string.h>
#include <sys/epoll.h>
#include <sys/param.h>
#include <unistd.h>

enum { EVENTS = 64, NANOSECONDS = 1000000 };
/* Descriptors that new objects don't get: FILES_KEPT, or with a low limit a PART_KEPT-th of all. They are for new processes,
 * and for answers. */
enum { FILES_KEPT = 64, PART_KEPT = 4 };
enum { MILLISECONDS_TO_POSTPONE = 5, MILLISECONDS_TO_PART = 100, MILLISECONDS_BETWEEN_LOOKS = 100 };

static void nothing(void)
{
}

static struct shared_state *shared; /* the setup's */

int server_note(int file)
{
    if (file >= shared->above)
        shared->above = file + 1;
    return file;
}

static bool any(int file)
{
    return file >= 0;
}

static bool no_room(struct registry *registry)
{
    (void)registry;
    return false;
}

/* The server has its descriptors to itself, and blocks all signals. */
static const struct host HOST = { nothing, nothing, server_note, no_room, any, nothing, nothing, client_owes_answer };

int server_watch(struct server *server, int file, uint32_t how)
{
    struct epoll_event event = { .events = EPOLLIN | how, .data.fd = file };

    return epoll_ctl(server->events, EPOLL_CTL_ADD, file, &event);
}

static long files_for_objects(void)
{
    long all = sysconf(_SC_OPEN_MAX);

    return all - MIN(FILES_KEPT, all / PART_KEPT);
}

/* The kernel gives the lowest free numbers. An object takes two, of which one is free again once it was sent. */
bool server_has_room(const struct server *server)
{
    int first, second;

    if (shared->above < server->files_for_objects)
        return true;
    first = call_dup_from(server->spare, 0);
    second = first < 0 ? -1 : call_dup_from(server->spare, 0);
    if (first >= 0)
        call_close(first);
    if (second >= 0)
        call_close(second);
    return second >= 0 && second < server->files_for_objects;
}

/* Looks at all objects that the set of endpoints reports. */
void server_see_closings(struct server *server)
{
    struct epoll_event events[EVENTS];
    int count;

    do {
        count = epoll_wait(server->registry.endpoints, events, EVENTS, 0);
        for (int i = 0; i < count; i++) {
            struct object *object = map_find(&server->registry.by_number, events[i].data.u64);

            if (object)
                registry_look(&server->registry, object, false);
        }
    } while (count == EVENTS);
    if (server->registry.closing && server->postponed == 0)
        server->postponed = registry_now();
}

void server_settle(struct server *server)
{
    registry_settle(&server->registry);
    server->postponed = 0;
    server->is_parted = false;
}

/* In a trace, closings are held back briefly for other closings of the same process, which closes its connection last,
 * as that has a high number. */
static void settle_in_time(struct server *server)
{
    if (!server->registry.closing)
        server->is_parted = false;
    else if (!server->registry.trace || server->is_parted ||
             registry_now() - server->postponed > MILLISECONDS_TO_POSTPONE * NANOSECONDS)
        server_settle(server);
}

static void take_order(struct server *server)
{
    char order;

    if (call_read(server->setup->obeys, &order, 1) == 1)
        server->program_has_ended = true;
}

/* Restarts a guard that was killed. Once bimphlai-run has ended, only the server does. A guard whose end no event
 * reports counts as lacking, so that the server looks at it from time to time. */
static void keep_guard(struct server *server)
{
    bool runs = process_goes_on(&shared->guard) || server->setup->start_guard() == 0;

    server->lacks_guard = !runs || (server_watch(server, shared->guard.handle, EPOLLONESHOT) && errno != EEXIST);
}

/* bimphlai-run was killed; or it has ended, and leaves the service to the processes that still use it. */
static void take_end_of_tool(struct server *server)
{
    epoll_ctl(server->events, EPOLL_CTL_DEL, shared->tool.handle, NULL);
    server->program_has_ended = server->tool_has_ended = true;
    keep_guard(server);
}

/* Checks what no event reports: processes without pidfds, and a guard that couldn't be started. */
static void look_at_processes(struct server *server)
{
    if (server->lacks_guard)
        keep_guard(server);
    if (shared->tool.handle < 0 && !server->tool_has_ended && !process_goes_on(&shared->tool))
        take_end_of_tool(server);
}

static void handle(struct server *server, int file)
{
    if (file == server->setup->listener)
        client_take(server);
    else if (file == server->setup->obeys)
        take_order(server);
    else if (file == shared->tool.handle)
        take_end_of_tool(server);
    else if (file == shared->guard.handle)
        keep_guard(server);
    else if (file == server->registry.endpoints)
        server_see_closings(server);
    else
        client_serve(server, file);
}

/* A client that took its answer on another processor often asks again at once. */
static int look_for_events(struct server *server, struct epoll_event *events)
{
    uint64_t until = registry_now() + CHANNEL_NANOSECONDS_TO_LOOK;
    int count;

    do
        count = epoll_wait(server->events, events, EVENTS, 0);
    while (count == 0 && registry_now() < until);
    if (count == 0)
        server->registry.page->awake = 0;
    return count;
}

static int wait_for_events(struct server *server, struct epoll_event *events)
{
    int count = server->registry.page->awake ? look_for_events(server, events) : 0;
    bool hurries = server->registry.closing || server->is_hurried;
    bool looks = server->lacks_guard || shared->tool.handle < 0;

    if (count > 0)
        return count;
    return epoll_wait(server->events, events, EVENTS,
                      hurries ? MILLISECONDS_TO_POSTPONE : looks ? MILLISECONDS_BETWEEN_LOOKS : -1);
}

static void fill_statistics(struct server *server)
{
    struct statistics *statistics = &shared->statistics;

    statistics->requests = server->registry.requests;
    statistics->timelines = server->registry.counts[TIMELINE];
    statistics->files = server->registry.counts[SYNC_FILE];
    statistics->buffers = server->registry.counts[BUFFER];
}

/* Writes that the service is ready, or whether it stays after the program because processes still use it. */
static void say(struct server *server, char what)
{
    fill_statistics(server);
    while (call_write(server->setup->said, &what, 1) < 0 && errno == EINTR) {}
}

static bool is_used(const struct server *server)
{
    return server->client_count > 0 || server->registry.by_inode.count > 0;
}

static void serve_until(struct server *server, bool (*goes_on)(const struct server *))
{
    struct epoll_event events[EVENTS];

    while (goes_on(server)) {
        int count = wait_for_events(server, events);

        for (int i = 0; i < count; i++)
            handle(server, events[i].data.fd);
        look_at_processes(server);
        settle_in_time(server);
    }
}

static bool program_goes_on(const struct server *server)
{
    return !server->program_has_ended;
}

/* The program's other processes get a moment to end with it. */
static bool others_part(const struct server *server)
{
    return is_used(server) && registry_now() - server->parting < MILLISECONDS_TO_PART * NANOSECONDS;
}

static void let_others_part(struct server *server)
{
    server_see_closings(server);
    server_settle(server);
    server->parting = registry_now();
    serve_until(server, others_part);
    server_see_closings(server);
    server_settle(server);
}

static int open_server(struct server *server, const struct server_setup *setup)
{
    sigset_t signals;

    process_raise_limit();
    server->files_for_objects = files_for_objects();
    sigfillset(&signals);
    sigprocmask(SIG_BLOCK, &signals, NULL);
    server->setup = setup;
    shared = setup->shared;
    server->events = epoll_create1(EPOLL_CLOEXEC);
    server->spare = open("/dev/null", O_RDONLY | O_CLOEXEC);
    errno = registry_open(&server->registry, &HOST, setup->trace);
    if (errno)
        return errno;
    server->registry.endpoints = epoll_create1(EPOLL_CLOEXEC);
    if (server_watch(server, setup->listener, 0) || server_watch(server, setup->obeys, 0) ||
        server_watch(server, server->registry.endpoints, 0))
        return errno;
    if (shared->tool.handle >= 0 && server_watch(server, shared->tool.handle, 0))
        return errno;
    return 0;
}

static bool program_is_left(const struct server *server)
{
    return server->tool_has_ended && process_goes_on(&shared->program);
}

static void close_server(struct server *server)
{
    const int opened[] = { server->events, server->spare, server->registry.endpoints, server->registry.page_memory };

    registry_close(&server->registry);
    map_free(&server->clients);
    for (size_t i = 0; i < sizeof opened / sizeof opened[0]; i++)
        call_close(opened[i]);
}

int server_run(const struct server_setup *setup)
{
    static struct server server;
    int error = open_server(&server, setup);
    bool stays;

    if (error) {
        fprintf(stderr, "bimphlai-run: the service can't start: %s\n", strerror(error));
        return 1;
    }
    say(&server, SERVER_IS_READY);
    serve_until(&server, program_goes_on);
    server.is_hurried = true;
    serve_until(&server, program_is_left);
    let_others_part(&server);
    server.is_hurried = false;
    stays = is_used(&server);
    say(&server, stays ? SERVER_STAYS : SERVER_ENDS);
    if (stays)
        serve_until(&server, is_used);
    if (stays || server.tool_has_ended)
        folder_remove(setup->folder);
    close_server(&server);
    setup->shared->has_ended = 1;
    return 0;
}
