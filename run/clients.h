/* State shared by the server's loop and the code that serves clients. */
#ifndef BIM_RUN_CLIENTS_H
#define BIM_RUN_CLIENTS_H

#include "registry.h"
#include "channel.h"
#include "server.h"

/* A connected process. */
struct client {
    int socket, doorbell; /* doorbell: -1 without a channel */
    struct channel *channel;
    int process; /* a pidfd by which the guard can kill it, or -1 */
};

struct server {
    struct registry registry;
    const struct server_setup *setup;
    int events;
    struct channel *incremented; /* the channel of the last increment, or NULL */
    int spare;                   /* a descriptor to close when no other is free */
    long files_for_objects;      /* new objects get descriptors below this number */
    struct map clients;          /* keyed by their sockets and doorbells, plus 1 */
    size_t client_count;
    bool program_has_ended, tool_has_ended, lacks_guard;
    bool is_parted;     /* a client has disconnected since the last closings */
    uint64_t postponed; /* the time since which closings wait */
    bool is_hurried;    /* no event reports what the server waits for */
    uint64_t parting;   /* the time at which the program ended */
};

/* Adds a descriptor to the server's epoll set. Returns 0, or -1 with errno. */
int server_watch(struct server *server, int file, uint32_t how);
/* Has the guard check descriptors up to this number too. Returns `file`. */
int server_note(int file);
/* Returns whether more than the descriptors that are kept for connections and answers are free. */
bool server_has_room(const struct server *server);
/* Notes all closings so far, and releases the closed objects. */
void server_see_closings(struct server *server);
void server_settle(struct server *server);

/* Returns whether the client that incremented last hasn't taken its answer yet. */
bool client_owes_answer(struct registry *registry);
/* Accepts a connection. */
void client_take(struct server *server);
/* Takes and answers a request of the client that has this socket or doorbell. */
void client_serve(struct server *server, int file);

#endif
