#define _GNU_SOURCE
#include "shuffle.h"

#include "calls.h"
#include "shim.h"

#include <errno.h>
#include <stdlib.h>
#include <time.h>

/* One moment in MOMENTS is a pause. Its length is 1 us, 2 us, 4 us and so on, each of the SCALES with equal
 * probability. The longest are delays that a busy machine causes. */
enum { MOMENTS = 4, SCALES = 16, NANOSECONDS = 1000 };

static bool is_on;
static uint64_t seed;
static _Atomic uint64_t strangers; /* threads that weren't started by pthread_create */
static __thread uint64_t stream __attribute__((tls_model("initial-exec"))); /* 0 until the thread's first moment */

/* The output function of SplitMix64. */
static uint64_t mixed(uint64_t z)
{
    z = (z ^ z >> 30) * 0xbf58476d1ce4e5b9u;
    z = (z ^ z >> 27) * 0x94d049bb133111ebu;
    return z ^ z >> 31;
}

static uint64_t drawn(void)
{
    if (stream == 0)
        stream = mixed(seed + strangers++) | 1;
    stream += 0x9e3779b97f4a7c15u;
    return mixed(stream);
}

bool shuffle_is_on(void)
{
    return is_on;
}

void shuffle_begin(void)
{
    const char *text = getenv(BIM_SHUFFLE);

    if (!text)
        return;
    seed = mixed(strtoull(text, NULL, 10) + 1);
    is_on = true;
}

static void stay_away(void)
{
    struct timespec pause = { .tv_nsec = NANOSECONDS };
    int before = errno;
    uint64_t moment = drawn();

    if (moment % MOMENTS != 0)
        return;
    pause.tv_nsec <<= moment / MOMENTS % SCALES;
    syscall(SYS_nanosleep, &pause, NULL);
    errno = before;
}

void shuffle_pause(void)
{
    if (is_on)
        stay_away();
}

uint64_t shuffle_draw(void)
{
    return is_on ? drawn() : 0;
}

void shuffle_fork(void)
{
    stream = shuffle_draw();
}

void shuffle_start(uint64_t of_thread)
{
    stream = of_thread;
    shuffle_pause();
}
