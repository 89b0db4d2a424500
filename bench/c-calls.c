/* Times ten million calls of each kind, beside getppid, a system call, which is the least cost of a call into the
 * kernel. */
#include <bimphlai.h>
#include <inttypes.h>
#include <stdio.h>
#include <stdlib.h>
#include <time.h>
#include <unistd.h>

enum { CALLS = 10000000, TRIES = 3, NAMES = 64 };

static void check(int refusal, const char *call)
{
    if (refusal == BIM_OK)
        return;
    fprintf(stderr, "%s: refused with %s\n", call, bim_refusal_name(refusal));
    exit(1);
}
#define CHECK(call) check(call, #call)

static bim_desk desk = BIM_DESK_INIT;
static uint64_t value;

static void inc(void)
{
    bim_inc(&desk, "gpu", 1, &value);
}

static void wait_once(void)
{
    bim_wait(&desk, "pending");
}

static void system_call(void)
{
    getppid();
}

static double seconds(void)
{
    struct timespec now;

    clock_gettime(CLOCK_MONOTONIC, &now);
    return (double)now.tv_sec + (double)now.tv_nsec / 1e9;
}

/* Returns the lesser of the best time so far and an attempt's, in nanoseconds a call. */
static double better(double best, int attempt, double took)
{
    double each = took * 1e9 / CALLS;

    return attempt == 0 || each < best ? each : best;
}

/* Returns the best of some attempts, in nanoseconds. */
static double cost(void (*call)(void))
{
    double best = 0;

    for (int attempt = 0; attempt < TRIES; attempt++) {
        double begun = seconds();
        for (int i = 0; i < CALLS; i++)
            call();
        best = better(best, attempt, seconds() - begun);
    }
    return best;
}

/* Times merges of two files with one point each, on two timelines, into a sequence of names, and the closes that free
 * these names again. Stores the best of some attempts. */
static void merge_costs(double *merges, double *closes)
{
    char names[NAMES][8];

    for (int i = 0; i < NAMES; i++)
        snprintf(names[i], sizeof names[i], "merge%d", i);
    /* A refusal would be timed as a fast call. */
    CHECK(bim_merge(&desk, names[0], "pending", "other"));
    CHECK(bim_close(&desk, names[0]));
    for (int attempt = 0; attempt < TRIES; attempt++) {
        double merging = 0, closing = 0;
        for (int round = 0; round < CALLS / NAMES; round++) {
            double begun = seconds(), merged;
            for (int i = 0; i < NAMES; i++)
                bim_merge(&desk, names[i], "pending", "other");
            merged = seconds();
            for (int i = 0; i < NAMES; i++)
                bim_close(&desk, names[i]);
            merging += merged - begun;
            closing += seconds() - merged;
        }
        *merges = better(*merges, attempt, merging);
        *closes = better(*closes, attempt, closing);
    }
}

static void write_row(const char *name, double took, int goal)
{
    printf("%-22s %8.1f ", name, took);
    if (goal)
        printf("%6d", goal);
    putchar('\n');
}

int main(void)
{
    static const struct {
        const char *name;
        void (*call)(void);
        int goal;
    } rows[] = {
        { "bim_inc", inc, 30 },
        { "bim_wait", wait_once, 30 },
        { "getppid", system_call, 0 },
    };
    double merges = 0, closes = 0;

    CHECK(bim_desk_open(&desk));
    CHECK(bim_timeline(&desk, "gpu", &value));
    CHECK(bim_timeline(&desk, "still", &value));
    CHECK(bim_timeline(&desk, "display", &value));
    CHECK(bim_fence(&desk, "pending", "still", 5));
    CHECK(bim_fence(&desk, "other", "display", 5));
    printf("%-22s %8s %6s\n", "call", "ns", "goal");
    for (size_t i = 0; i < sizeof rows / sizeof rows[0]; i++)
        write_row(rows[i].name, cost(rows[i].call), rows[i].goal);
    merge_costs(&merges, &closes);
    write_row("bim_merge", merges, 120);
    write_row("bim_close", closes, 0);
    bim_desk_close(&desk);
    return 0;
}
