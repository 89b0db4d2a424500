#define _GNU_SOURCE
#include "channel.h"

#include "calls.h"

#include <errno.h>
#include <linux/futex.h>
#include <sched.h>
#include <string.h>
#include <sys/mman.h>
#include <time.h>

enum { SECONDS_BETWEEN_CHECKS = 1, LOOKS_IN_TURN = 64, TRIES = 64 };

static void *map_channel(int memory)
{
    void *channel = mmap(NULL, sizeof(struct channel), PROT_READ | PROT_WRITE, MAP_SHARED, memory, 0);

    return channel == MAP_FAILED ? NULL : channel;
}

struct channel *channel_new(int *memory)
{
    struct channel *channel = NULL;

    *memory = memfd_create("bimphlai-run", MFD_CLOEXEC | MFD_ALLOW_SEALING);
    if (*memory < 0)
        return NULL;
    if (ftruncate(*memory, sizeof *channel) == 0 &&
        fcntl(*memory, F_ADD_SEALS, F_SEAL_SHRINK | F_SEAL_GROW | F_SEAL_SEAL) == 0)
        channel = map_channel(*memory);
    if (!channel) {
        call_close(*memory);
        *memory = -1;
    }
    return channel;
}

void channel_close(struct channel *channel)
{
    munmap(channel, sizeof *channel);
}

bool channel_take(struct channel *channel, struct bim_request *request)
{
    uint32_t turn = atomic_load_explicit(&channel->turn, memory_order_acquire);

    if (turn != CHANNEL_IS_LOOKED_AT && turn != CHANNEL_IS_AWAITED)
        return false;
    memcpy(request, &channel->request, sizeof *request);
    return true;
}

bool channel_answer(struct channel *channel, const struct bim_answer *answer)
{
    memcpy(&channel->answer, answer, bim_answer_size(answer));
    if (atomic_exchange_explicit(&channel->turn, CHANNEL_IS_ANSWERED, memory_order_acq_rel) == CHANNEL_IS_LOOKED_AT)
        return channel->processor != (uint32_t)sched_getcpu();
    syscall(SYS_futex, &channel->turn, FUTEX_WAKE, 1, NULL, NULL, 0);
    return false;
}

bool channel_is_answered(const struct channel *channel)
{
    return atomic_load_explicit(&channel->turn, memory_order_acquire) == CHANNEL_IS_ANSWERED;
}

static bool has_processors; /* several */

struct channel *channel_open(int memory)
{
    struct channel *channel = map_channel(memory);
    cpu_set_t processors;

    has_processors = sched_getaffinity(0, sizeof processors, &processors) == 0 && CPU_COUNT(&processors) > 1;
    if (channel)
        madvise(channel, sizeof *channel, MADV_DONTFORK);
    return channel;
}

static uint64_t now(void)
{
    struct timespec time;

    clock_gettime(CLOCK_MONOTONIC, &time);
    return time.tv_sec * 1000000000ull + time.tv_nsec;
}

/* Looks for the answer for a while, at memory only. */
static void look_for_answer(const struct channel *channel)
{
    uint64_t until = now() + CHANNEL_NANOSECONDS_TO_LOOK;

    do {
        for (int looks = 0; looks < LOOKS_IN_TURN; looks++)
            if (channel_is_answered(channel))
                return;
    } while (now() < until);
}

/* Sleeps until there is an answer. */
static void await_answer(struct channel *channel, void (*check)(void))
{
    static const struct timespec LIMIT = { SECONDS_BETWEEN_CHECKS, 0 };
    uint32_t turn = CHANNEL_IS_LOOKED_AT;

    atomic_compare_exchange_strong(&channel->turn, &turn, CHANNEL_IS_AWAITED);
    while (!channel_is_answered(channel))
        if (syscall(SYS_futex, &channel->turn, FUTEX_WAIT, CHANNEL_IS_AWAITED, &LIMIT, NULL, 0) < 0 && errno == ETIMEDOUT)
            check();
}

/* A server that is asleep may be woken on this processor, or on another. One request in TRIES tells which. */
static bool looks(int server, int processor)
{
    static unsigned asked;

    return has_processors && (server < 0 ? asked++ % TRIES == 0 : server != processor);
}

bool channel_ask(struct channel *channel, int doorbell, int server, const struct bim_request *request,
                 struct bim_answer *answer, void (*check)(void))
{
    uint64_t one = 1;
    int processor = sched_getcpu();
    bool is_looking = looks(server, processor);

    memcpy(&channel->request, request, sizeof *request);
    channel->processor = processor;
    atomic_store_explicit(&channel->turn, is_looking ? CHANNEL_IS_LOOKED_AT : CHANNEL_IS_AWAITED, memory_order_release);
    while (call_write(doorbell, &one, sizeof one) < 0)
        if (errno != EINTR)
            return false;
    if (is_looking)
        look_for_answer(channel);
    await_answer(channel, check);
    memcpy(answer, &channel->answer, offsetof(struct bim_answer, row));
    if (answer->rows <= BIM_ROWS)
        memcpy(answer->row, channel->answer.row, answer->rows * sizeof answer->row[0]);
    channel->turn = CHANNEL_IS_FREE;
    return true;
}
