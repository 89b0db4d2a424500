/* usage: overtaking [ROUNDS]
 *
 * An increment wakes a thread that closes the timeline. The incrementing thread continues while the other is woken, and
 * finds a later point pending. A scheduler may decide otherwise at any time. How often it does so with bare pipes shows
 * how busy the machine is. */
#include "kernel.h"
#include <pthread.h>
#include <sched.h>

/* How many of 100 increments may be overtaken, and how many more for each overtaken write to a pipe. More may be on a slow machine,
 * since a closing waits for the thread that has incremented for a fixed time. */
enum { PERCENT = 100, ROUNDS = 200, ALLOWED = 1, TIMES = 4 };

/* A round: the thread waits for `first`, and then makes `later` readable. */
struct round {
    int timeline, first, later;
    int pipes[2][2];
    void (*follow)(struct round *round);
    void (*lead)(struct round *round);
    volatile int waits;
};

static void close_timeline(struct round *round)
{
    close(round->timeline);
}

static void increment(struct round *round)
{
    EXPECT(inc(round->timeline, 1), 0);
}

static void fill(struct round *round, int pipe)
{
    EXPECT(write(round->pipes[pipe][1], "", 1), 1);
}

static void fill_later(struct round *round)
{
    fill(round, 1);
}

static void fill_first(struct round *round)
{
    fill(round, 0);
}

static void *follow(void *given)
{
    struct round *round = given;

    round->waits = 1;
    EXPECT(ready(round->first, POLLIN, SOON), POLLIN);
    round->follow(round);
    return NULL;
}

/* Returns whether the thread overtakes this one. The thread is asleep, or about to wait. */
static int is_overtaken(struct round *round, int asleep)
{
    pthread_t thread;
    int overtaken;

    EXPECT(pthread_create(&thread, NULL, follow, round), 0);
    while (!round->waits)
        sched_yield();
    if (asleep)
        pause_for(1);
    round->lead(round);
    overtaken = ready(round->later, POLLIN, 0) != 0;
    pthread_join(thread, NULL);
    EXPECT(is_signalled(round->later), 1);
    return overtaken;
}

static int by_pipes(int asleep)
{
    struct round round = { .follow = fill_later, .lead = fill_first };

    EXPECT(pipe(round.pipes[0]) | pipe(round.pipes[1]), 0);
    round.first = round.pipes[0][0];
    round.later = round.pipes[1][0];
    int overtaken = is_overtaken(&round, asleep);
    for (int i = 0; i < 4; i++)
        close(round.pipes[i / 2][i % 2]);
    return overtaken;
}

static int by_fences(int asleep)
{
    struct round round = { .timeline = timeline(), .follow = close_timeline, .lead = increment };

    round.first = fence(round.timeline, 1);
    round.later = fence(round.timeline, 2);
    int overtaken = is_overtaken(&round, asleep);
    EXPECT(status(round.first), 1);
    EXPECT(status(round.later), -ENOENT);
    close(round.first);
    close(round.later);
    return overtaken;
}

int main(int argc, char **argv)
{
    int rounds = argc > 1 ? atoi(argv[1]) : ROUNDS, with_pipes = 0, with_fences = 0;

    give_up_after(60);
    for (int i = 0; i < rounds; i++) {
        with_pipes += by_pipes(i % 2);
        with_fences += by_fences(i % 2);
    }
    int allowed = ALLOWED * slowness() * rounds / PERCENT + TIMES * with_pipes;
    if (with_fences > allowed)
        printf("%d of %d increments were overtaken, and %d writes to pipes\n", with_fences, rounds, with_pipes);
    HOLDS(with_fences <= allowed);
    return report("overtaking");
}
