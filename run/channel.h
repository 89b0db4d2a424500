/* A channel: shared memory between a process and its server, for requests that neither carry nor return a descriptor. A
 * request by a channel and a doorbell (an eventfd) takes half the time of a request by a socket. */
#ifndef BIM_RUN_CHANNEL_H
#define BIM_RUN_CHANNEL_H

#include "wire.h"

#include <stdatomic.h>
#include <stdbool.h>

/* How long each side looks for the other's next word before it sleeps, if both run at once: to wake a thread on another
 * processor takes some microseconds, and most answers come sooner. On one processor it would keep the other side from
 * running. */
enum { CHANNEL_NANOSECONDS_TO_LOOK = 10000 };

/* The thread that has asked looks for the answer, or sleeps. */
enum channel_turn { CHANNEL_IS_FREE, CHANNEL_IS_LOOKED_AT, CHANNEL_IS_AWAITED, CHANNEL_IS_ANSWERED };

struct channel {
    _Atomic uint32_t turn;
    uint32_t processor; /* on which the thread looks */
    struct bim_request request;
    struct bim_answer answer;
};

/* The server's side. The memory is sealed against shrinking. Returns NULL with errno on failure. */
struct channel *channel_new(int *memory);
void channel_close(struct channel *channel);
/* Takes a request. Returns false if there is none. */
bool channel_take(struct channel *channel, struct bim_request *request);
/* Returns whether the process was looking for the answer, on another processor than this one. */
bool channel_answer(struct channel *channel, const struct bim_answer *answer);
/* Returns whether an answer is still waiting for the process to take it. */
bool channel_is_answered(const struct channel *channel);

/* The process's side, which children don't inherit. */
struct channel *channel_open(int memory);
/* Sends a request and waits for its answer. `server` is the processor on which the server looks for requests, or -1.
 * `check` is called from time to time, and doesn't return if the server is lost. Returns false if `doorbell` isn't
 * open. */
bool channel_ask(struct channel *channel, int doorbell, int server, const struct bim_request *request,
                 struct bim_answer *answer, void (*check)(void));

#endif
