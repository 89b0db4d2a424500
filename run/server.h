/* The server of a process tree, in a process of its own. */
#ifndef BIM_RUN_SERVER_H
#define BIM_RUN_SERVER_H

#include "registry.h"
#include "process.h"

#include <stdbool.h>
#include <sys/types.h>

/* The guard finds clients whose pidfds have higher numbers through /proc. */
enum { NOTED_FILES = 65536 };

/* Counts of what the server has served, and of what it holds now. */
struct statistics {
    _Atomic uint64_t requests, timelines, files, buffers;
};

/* Memory shared by bimphlai-run, its server and its guard. The pidfds are in the table of descriptors that the three
 * share. */
struct shared_state {
    struct process tool, server, guard;
    struct process program; /* set once the program runs */
    _Atomic int above;      /* greater than any descriptor that the server holds */
    _Atomic bool is_client[NOTED_FILES]; /* whether the descriptor of this number is a client's pidfd */
    struct statistics statistics;
    _Atomic int has_ended; /* the server has ended in good order, and released everything */
};

/* What the server writes once it serves, and once it knows that the program has ended. */
enum { SERVER_IS_READY = 'R', SERVER_ENDS = 'E', SERVER_STAYS = 'S' };

struct server_setup {
    int listener;
    int obeys;          /* a byte in it says that the program has ended */
    int said;           /* the pipe to which the server writes one of the words above */
    const char *folder; /* the server removes it if bimphlai-run doesn't */
    const char *trace; /* or NULL */
    struct shared_state *shared;
    int (*start_guard)(void); /* called once bimphlai-run has ended. Returns 0 or an errno */
};

/* Serves until the program or bimphlai-run has ended, and then until no process uses the service. Returns the exit
 * status of the server's process. */
int server_run(const struct server_setup *setup);

#endif
