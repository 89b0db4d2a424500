/* Times the calls of a device while ten, a thousand and a hundred thousand files wait, and measures the memory of each
 * object. `bench/device` runs it.
 *
 * usage: device times                 prints a row for each call and number of files: name, files, nanoseconds, goal
 *        device counted NAME FILES    makes a few calls NAME within `measured`, and prints how many
 *        device memory                prints the bytes of each object, and of a million timelines made one by one
 *
 * Columns of a row are separated by tabs.
 */
#include <bimphlai.h>
#include <inttypes.h>
#include <stdio.h>
#include <stdlib.h>
#include <string.h>
#include <sys/wait.h>
#include <time.h>
#include <unistd.h>

enum {
    TIMELINES = 64,
    FAR = 1 << 30, /* a point that no timeline reaches here */
    MANY = 1000,   /* files that one increment wakes */
    TRIES = 3,
    OBJECTS = 100000,
    TURNS = 1000000
};

static bim_device device = BIM_DEVICE_INIT;
static uint64_t timelines[TIMELINES], one, other, all, signalled[MANY];
static uint32_t value;

static void check(int refusal, const char *call)
{
    if (refusal == 0)
        return;
    fprintf(stderr, "%s: fails with %s\n", call, strerror(refusal));
    exit(1);
}
#define CHECK(call) check(call, #call)

/* ---- Timed calls ---- */

static void inc(void)
{
    bim_device_raised raised;

    CHECK(bim_device_inc(&device, timelines[0], 1, 2, &raised));
}

static void fence_and_release(void)
{
    uint64_t file;

    CHECK(bim_device_fence(&device, timelines[0], FAR, 1, &file));
    CHECK(bim_device_release(&device, file, 1));
}

static void merge_and_release(void)
{
    uint64_t file;

    CHECK(bim_device_merge(&device, one, other, "merge", &file));
    CHECK(bim_device_release(&device, file, 1));
}

static void info_of(uint64_t file)
{
    bim_device_file_info info;
    bim_device_fence_info rows[TIMELINES];

    CHECK(bim_device_info(&device, file, &info, rows, TIMELINES));
}

static void info_of_one(void)
{
    info_of(one);
}

static void info_of_all(void)
{
    info_of(all);
}

static void is_signalled(void)
{
    int32_t signalled;

    CHECK(bim_device_is_signalled(&device, one, &signalled));
}

/* ---- Untimed: the files that `calls` increments wake, and their release. `value` is the value after them. ---- */

static void follow(int calls)
{
    value += (uint32_t)calls;
}

static void make_one_each(int calls)
{
    for (int i = 0; i < calls; i++)
        CHECK(bim_device_fence(&device, timelines[0], ++value, 1, &signalled[i]));
}

static void make_many(int calls)
{
    value += (uint32_t)calls;
    for (int i = 0; i < MANY; i++)
        CHECK(bim_device_fence(&device, timelines[0], value, 1, &signalled[i]));
}

static void release(int files)
{
    static uint64_t woken[MANY + 1];

    check(bim_device_take_woken(&device, woken, MANY + 1) == (size_t)files ? 0 : BIM_ENOENT, "the files that wake");
    for (int i = 0; i < files; i++)
        CHECK(bim_device_release(&device, signalled[i], 3));
}

/* ---- Rows ---- */

/* A call, the number of calls in a round, and the number of rounds; and what is done before each round, so that a call
 * wakes this number of files. */
static const struct row {
    const char *name;
    void (*call)(void);
    int goal, calls, rounds;
    void (*before)(int calls);
    int woken;
} rows[] = {
    { "inc, waking none", inc, 15, 100000, 10, follow, 0 },
    { "inc, waking one", inc, 0, 100, 5000, make_one_each, 1 },
    { "inc, waking a thousand", inc, 0, 1, 300, make_many, MANY },
    { "fence and release", fence_and_release, 100, 100000, 10, NULL, 0 },
    { "merge and release", merge_and_release, 150, 100000, 10, NULL, 0 },
    { "info of 1 fence", info_of_one, 0, 100000, 10, NULL, 0 },
    { "info of 64 fences", info_of_all, 0, 10000, 10, NULL, 0 },
    { "is_signalled", is_signalled, 5, 100000, 10, NULL, 0 },
};
enum { ROWS = sizeof rows / sizeof rows[0] };

static double seconds(void)
{
    struct timespec now;

    clock_gettime(CLOCK_MONOTONIC, &now);
    return (double)now.tv_sec + (double)now.tv_nsec / 1e9;
}

__attribute__((noinline)) static void measured(void (*call)(void), int calls)
{
    for (int i = 0; i < calls; i++)
        call();
}

/* Returns the seconds that `rounds` rounds of a row take. */
static double time_of(const struct row *row, int calls, int rounds)
{
    double took = 0;

    for (int i = 0; i < rounds; i++) {
        if (row->before)
            row->before(calls);
        double begun = seconds();
        measured(row->call, calls);
        took += seconds() - begun;
        if (row->woken)
            release(calls * row->woken);
    }
    return took;
}

/* Opens a device in which `files` files wait. */
static void open_device(int files)
{
    uint64_t file;

    CHECK(bim_device_open(&device));
    value = 0;
    for (int i = 0; i < TIMELINES; i++)
        CHECK(bim_device_timeline(&device, "bench", &timelines[i]));
    for (int i = 0; i < files; i++)
        CHECK(bim_device_fence(&device, timelines[i % TIMELINES], FAR + (uint32_t)i, 1, &file));
    CHECK(bim_device_fence(&device, timelines[0], FAR, 1, &one));
    CHECK(bim_device_fence(&device, timelines[1], FAR, 1, &other));
    all = one;
    for (int i = 1; i < TIMELINES; i++) {
        CHECK(bim_device_fence(&device, timelines[i], FAR, 1, &file));
        CHECK(bim_device_merge(&device, all, file, "all", &all));
    }
}

static void write_times(void)
{
    static const int numbers[] = { 10, 1000, 100000 };

    for (size_t i = 0; i < ROWS; i++)
        for (size_t j = 0; j < sizeof numbers / sizeof numbers[0]; j++) {
            const struct row *row = &rows[i];
            double best = 0;
            open_device(numbers[j]);
            for (int attempt = 0; attempt < TRIES; attempt++) {
                double each = time_of(row, row->calls, row->rounds) * 1e9 / row->calls / row->rounds;
                best = attempt == 0 || each < best ? each : best;
            }
            bim_device_close(&device);
            printf("%s\t%d\t%.1f\t%d\n", row->name, numbers[j], best, row->goal);
        }
}

/* Makes a few calls of a row. */
static int write_counted(const char *name, int files)
{
    for (size_t i = 0; i < ROWS; i++)
        if (strcmp(rows[i].name, name) == 0) {
            int calls = rows[i].calls < 100 ? rows[i].calls : 100, rounds = 10;
            open_device(files);
            time_of(&rows[i], calls, rounds);
            printf("%d\n", calls * rounds);
            return 0;
        }
    return 2;
}

/* ---- Memory ---- */

/* Returns the process's resident bytes. */
static long long resident(void)
{
    FILE *file = fopen("/proc/self/statm", "r");
    long long pages = 0;

    if (!file || fscanf(file, "%*d %lld", &pages) != 1)
        exit(1);
    fclose(file);
    return pages * sysconf(_SC_PAGESIZE);
}

static void make_timeline(void)
{
    uint64_t number;

    CHECK(bim_device_timeline(&device, "bench", &number));
}

static void make_fence(void)
{
    uint64_t number;

    CHECK(bim_device_fence(&device, timelines[0], FAR + ++value, 1, &number));
}

static void make_merge(void)
{
    uint64_t number;

    CHECK(bim_device_merge(&device, one, other, "merge", &number));
}

static void make_merge_of_all(void)
{
    uint64_t number;

    CHECK(bim_device_merge(&device, all, all, "all", &number));
}

static void make_buffer(void)
{
    uint64_t number;

    CHECK(bim_device_buffer(&device, 1, &number));
    CHECK(bim_device_import(&device, number, one, BIM_SYNC_WRITE));
}

/* Makes objects in a process of their own, which prints the bytes of each. */
static void write_memory(const char *name, void (*make)(void), int count)
{
    fflush(stdout);
    if (fork() == 0) {
        open_device(0);
        long long before = resident();
        measured(make, count);
        printf("%s\t%lld\n", name, (resident() - before) / count);
        exit(0);
    }
    wait(NULL);
}

static void write_turns(void)
{
    uint64_t number;

    open_device(0);
    long long before = resident();
    for (int i = 0; i < TURNS; i++) {
        CHECK(bim_device_timeline(&device, "bench", &number));
        CHECK(bim_device_release(&device, number, 1));
    }
    printf("a million timelines in turn, all together\t%lld\n", resident() - before);
    bim_device_close(&device);
}

static void write_memories(void)
{
    write_memory("a timeline", make_timeline, OBJECTS);
    write_memory("a file of 1 fence", make_fence, OBJECTS);
    write_memory("a file of 2 fences", make_merge, OBJECTS);
    write_memory("a file of 64 fences", make_merge_of_all, OBJECTS / 10);
    write_memory("a buffer with 1 fence", make_buffer, OBJECTS);
    write_turns();
}

int main(int count, char **words)
{
    if (count == 2 && strcmp(words[1], "times") == 0) {
        write_times();
        return 0;
    }
    if (count == 2 && strcmp(words[1], "memory") == 0) {
        write_memories();
        return 0;
    }
    if (count == 4 && strcmp(words[1], "counted") == 0)
        return write_counted(words[2], atoi(words[3]));
    fprintf(stderr, "usage: device times | device counted NAME FILES | device memory\n");
    return 2;
}
