/* The service of a run: its folder, its socket, and its server process. */
#ifndef BIM_RUN_SERVICE_H
#define BIM_RUN_SERVICE_H

#include "server.h"

#include <limits.h>
#include <stdbool.h>
#include <sys/types.h>

/* Descriptors that the guard frees when no other is free: for a folder, a file in it, and a pidfd. */
enum { SPARES = 3 };

struct service {
    char folder[64], socket[80];
    int lock; /* holds the lock of the folder */
    int listener;
    int said, hears;   /* the pipe for the words of the server and of the guard */
    int orders, obeys; /* the pipe that tells the server that the program has ended */
    int nowhere;       /* /dev/null */
    int spares[SPARES];
    struct shared_state *shared;
};

#define NO_SPARES { -1, -1, -1 }

/* A service with nothing open. */
#define SERVICE_CLOSED                                                                                      \
    {                                                                                                       \
        .lock = -1, .listener = -1, .said = -1, .hears = -1, .orders = -1, .obeys = -1, .nowhere = -1,      \
        .spares = NO_SPARES                                                                                 \
    }

/* Makes the folder and the socket in it. Returns 0 or an errno. */
int service_open(struct service *service);
/* Starts the server and its guard. Returns 0 or an errno. */
int service_start(struct service *service, const char *trace);
/* Tells the server that the program has ended. */
void service_end(const struct service *service);
/* Removes the folder, and closes what service_open opened. Call it once the server has ended. */
void service_remove(struct service *service);

/* Forks a process that shares this one's table of descriptors: a descriptor that either opens stays open when the other
 * ends. Under BIM_PLAIN_FORK the table isn't shared, since valgrind doesn't support that; losing the server is then
 * unsafe. */
pid_t service_share(void);

/* Returns how many endpoints the service holds. They are open in this process too. */
size_t service_endpoints(const struct service *service);
/* Closes everything but the service's own descriptors, after the server and its clients have ended. Returns how many of
 * the service's endpoints have an open other end. */
size_t service_held_endpoints(const struct service *service);
/* Closes the spare descriptors, for use when no other descriptor is free. */
void service_free_spares(struct service *service);

#endif
