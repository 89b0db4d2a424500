/* Serves the processes that have connected. */
#define _GNU_SOURCE
#include "clients.h"

#include "calls.h"
#include "pass.h"

#include <errno.h>
#include <sched.h>
#include <stdlib.h>
#include <string.h>
#include <sys/epoll.h>
#include <sys/eventfd.h>

/* Headers older than Linux 6.5 lack this option. */
#ifndef SO_PEERPIDFD
#define SO_PEERPIDFD 77
#endif

/* Returns whether the process at the other end belongs to this user. */
static bool is_users(int client, struct ucred *peer)
{
    socklen_t size = sizeof *peer;

    return getsockopt(client, SOL_SOCKET, SO_PEERCRED, peer, &size) == 0 && peer->uid == geteuid();
}

/* Notes for the guard whether a descriptor is a client's pidfd. */
static void note_handle(const struct server *server, int handle, bool is_client)
{
    if (handle >= 0 && handle < NOTED_FILES)
        server->setup->shared->is_client[handle] = is_client;
}

/* Returns a pidfd of the process at the other end, or -1. Kernels before Linux 6.5 need its number for that. */
static int open_handle(const struct server *server, int client, const struct ucred *peer)
{
    int handle;
    socklen_t size = sizeof handle;

    if (getsockopt(client, SOL_SOCKET, SO_PEERPIDFD, &handle, &size))
        handle = process_open(peer->pid).handle;
    note_handle(server, server_note(handle), true);
    return handle;
}

static struct client *client_of(const struct server *server, int file)
{
    return map_find(&server->clients, (uint64_t)file + 1);
}

/* Returns whether the process at the other end is now a client. */
static bool add_client(struct server *server, int socket)
{
    struct ucred peer;
    struct client *client = is_users(socket, &peer) ? malloc(sizeof *client) : NULL;

    if (!client)
        return false;
    *client = (struct client){ socket, -1, NULL, -1 };
    if (map_add(&server->clients, (uint64_t)socket + 1, client) || server_watch(server, socket, 0)) {
        map_remove(&server->clients, (uint64_t)socket + 1);
        free(client);
        return false;
    }
    server->client_count++;
    client->process = open_handle(server, socket, &peer);
    return true;
}

/* Says to a process that it can't be a client, in place of the answer to its first request. */
static void refuse(int socket)
{
    const struct bim_answer answer = { .error = ENFILE };

    pass_send(socket, &answer, bim_answer_size(&answer), -1, MSG_DONTWAIT);
    call_close(socket);
}

/* Turns one waiting process away, by the last descriptor. */
static void turn_away(struct server *server)
{
    int socket;

    call_close(server->spare);
    socket = accept4(server->setup->listener, NULL, NULL, SOCK_CLOEXEC | SOCK_NONBLOCK);
    if (socket >= 0)
        refuse(socket);
    server->spare = open("/dev/null", O_RDONLY | O_CLOEXEC);
}

void client_take(struct server *server)
{
    int socket = server_note(accept4(server->setup->listener, NULL, NULL, SOCK_CLOEXEC | SOCK_NONBLOCK));

    if (socket < 0 && (errno == EMFILE || errno == ENFILE))
        turn_away(server);
    if (socket >= 0 && !add_client(server, socket))
        refuse(socket);
}

static void part_with(struct server *server, struct client *client)
{
    map_remove(&server->clients, (uint64_t)client->socket + 1);
    call_close(client->socket);
    if (client->doorbell >= 0) {
        map_remove(&server->clients, (uint64_t)client->doorbell + 1);
        call_close(client->doorbell);
    }
    if (server->incremented == client->channel)
        server->incremented = NULL;
    if (client->channel)
        channel_close(client->channel);
    note_handle(server, client->process, false);
    if (client->process >= 0)
        call_close(client->process);
    free(client);
    server->client_count--;
    server->is_parted = true;
}

static int give_channel(struct server *server, struct client *client, int *gives)
{
    if (client->channel || !server_has_room(server))
        return EBUSY;
    client->channel = channel_new(gives);
    return client->channel ? 0 : errno;
}

/* An edge-triggered event is enough: the count of the doorbell is never read. */
static int give_doorbell(struct server *server, struct client *client, int *gives)
{
    if (!client->channel || client->doorbell >= 0)
        return EBUSY;
    client->doorbell = eventfd(0, EFD_CLOEXEC | EFD_NONBLOCK);
    if (client->doorbell < 0 || map_add(&server->clients, (uint64_t)client->doorbell + 1, client) ||
        server_watch(server, client->doorbell, EPOLLET))
        return ENOMEM;
    *gives = call_dup_from(client->doorbell, 0);
    return *gives < 0 ? errno : 0;
}

/* Returns whether a request must wait until closings are done. Increments, new points and connections have the same
 * result before and after. */
static bool follows_closings(const struct bim_request *request)
{
    switch (request->op) {
    case BIM_OP_HELLO:
    case BIM_OP_CHANNEL:
    case BIM_OP_DOORBELL:
    case BIM_OP_INC:
    case BIM_OP_FENCE: return false;
    default: return true;
    }
}

/* Returns whether the client took the answer. */
static bool send_answer(const struct client *client, struct bim_answer *answer, int gives)
{
    return pass_send(client->socket, answer, bim_answer_size(answer), gives, MSG_DONTWAIT) >= 0;
}

/* Sends an answer. If the kernel lacks memory, or the user has too many descriptors in flight, sends ENOMEM instead.
 * Returns whether the client took the answer. */
static bool send_or_refuse(const struct client *client, struct bim_answer *answer, int gives)
{
    if (send_answer(client, answer, gives))
        return true;
    if (errno != ENOMEM && errno != ENOBUFS && errno != ETOOMANYREFS)
        return false;
    *answer = (struct bim_answer){ .error = ENOMEM };
    return send_answer(client, answer, -1);
}

static bool is_request(const struct bim_request *request)
{
    return request->op > 0 && request->op < BIM_OPS;
}

static bool makes_object(const struct bim_request *request)
{
    switch (request->op) {
    case BIM_OP_TIMELINE:
    case BIM_OP_FENCE:
    case BIM_OP_MERGE:
    case BIM_OP_BUFFER:
    case BIM_OP_EXTEND:
    case BIM_OP_EXPORT: return true;
    default: return false;
    }
}

/* Returns the kernel's error where a process has numbers left, and the machine has none: of an open, or of an ioctl. */
static int error_of_full(const struct bim_request *request)
{
    return request->op == BIM_OP_TIMELINE || request->op == BIM_OP_TEXT ? ENFILE : ENOMEM;
}

/* Serves a request. New objects are refused before the service is full. */
static void serve(struct server *server, const struct bim_request *request, int passed, struct bim_answer *answer,
                  int *gives)
{
    if (makes_object(request) && !server_has_room(server))
        *answer = (struct bim_answer){ .error = EMFILE };
    else
        registry_serve(&server->registry, request, passed, answer, gives);
    if (answer->error == EMFILE)
        answer->error = error_of_full(request);
}

static void answer_client(struct server *server, struct client *client, const struct bim_request *request, int passed,
                          struct bim_answer *answer, int *gives)
{
    if (follows_closings(request)) {
        server_see_closings(server);
        if (request->op != BIM_OP_GONE)
            server_settle(server);
    }
    if (request->op != BIM_OP_CHANNEL && request->op != BIM_OP_DOORBELL) {
        serve(server, request, passed, answer, gives);
        return;
    }
    *answer = (struct bim_answer){ .gives = 1 };
    answer->error =
        request->op == BIM_OP_CHANNEL ? give_channel(server, client, gives) : give_doorbell(server, client, gives);
}

/* Answers one request. Returns whether the client took the answer. */
static bool serve_request(struct server *server, struct client *client, const struct bim_request *request, int passed)
{
    struct bim_answer answer;
    int gives = -1;
    bool taken;

    answer_client(server, client, request, passed, &answer, &gives);
    taken = send_or_refuse(client, &answer, gives);
    if (gives >= 0)
        call_close(gives);
    return taken;
}

/* Serves a message from a client's socket. Disconnects a client that sends a malformed message or doesn't take its
 * answer. */
static void serve_socket(struct server *server, struct client *client)
{
    struct bim_request request;
    int passed;
    ssize_t length = pass_receive(client->socket, &request, sizeof request, &passed, MSG_DONTWAIT);

    if (length < 0 && (errno == EAGAIN || errno == EINTR))
        return;
    if (length != sizeof request || !is_request(&request) || !serve_request(server, client, &request, passed))
        part_with(server, client);
    if (passed >= 0)
        call_close(passed);
}

/* Serves a request from a client's channel. A process repeats a request by the socket if its answer has a
 * descriptor. */
static void serve_channel(struct server *server, struct client *client)
{
    struct bim_request request;
    struct bim_answer answer;
    int gives = -1;

    if (!channel_take(client->channel, &request))
        return;
    if (!is_request(&request)) {
        part_with(server, client);
        return;
    }
    answer_client(server, client, &request, -1, &answer, &gives);
    if (gives >= 0)
        call_close(gives);
    server->registry.page->awake = channel_answer(client->channel, &answer) ? sched_getcpu() + 1 : 0;
    if (request.op == BIM_OP_INC)
        server->incremented = client->channel;
}

/* The registry is the server's first member. */
bool client_owes_answer(struct registry *registry)
{
    const struct channel *channel = ((struct server *)registry)->incremented;

    return channel && channel_is_answered(channel);
}

void client_serve(struct server *server, int file)
{
    struct client *client = client_of(server, file);

    if (client && client->doorbell == file)
        serve_channel(server, client);
    else if (client)
        serve_socket(server, client);
}
