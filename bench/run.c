/* usage: run TRIES           prints the time of each call in nanoseconds: the least of some tries
 *        run CALL COUNT      makes the call COUNT times, for strace
 *
 * The calls of sw_sync and sync files, and a lock with its unlock, beside getppid, the least cost of a system call, and a pipe with
 * two closes, the least cost of a file. */
#include "../tests/run/kernel.h"
#include <pthread.h>
#include <sys/syscall.h>

static int line, other, pending, second, signalled;

static void get_parent(void)
{
    getppid();
}

/* Uses bare system calls, which the library doesn't see. */
static void bare_pipe(void)
{
    int ends[2];

    if (syscall(SYS_pipe2, ends, 0))
        abort();
    syscall(SYS_close, ends[0]);
    syscall(SYS_close, ends[1]);
}

static void increment(void)
{
    inc(line, 1);
}

static void create(void)
{
    close(fence(other, 1u << 30));
}

static void join(void)
{
    close(merge("joined", pending, second));
}

static void report_file(void)
{
    struct report report;

    ask(pending, &report);
}

static void report_signalled(void)
{
    struct report report;

    ask(signalled, &report);
}

static void lock(void)
{
    static pthread_mutex_t mutex = PTHREAD_MUTEX_INITIALIZER;

    pthread_mutex_lock(&mutex);
    pthread_mutex_unlock(&mutex);
}

static void poll_file(void)
{
    ready(pending, POLLIN, 0);
}

static const struct call {
    const char *name;
    void (*run)(void);
    int count;
} calls[] = {
    { "getppid", get_parent, 1000 }, { "pipe", bare_pipe, 200 }, { "inc", increment, 1000 }, { "create", create, 100 },
    { "merge", join, 100 },          { "info", report_file, 300 }, { "result", report_signalled, 300 },
    { "poll", poll_file, 1000 },     { "lock", lock, 1000 },
};
enum { CALLS = sizeof calls / sizeof *calls };

static double least_of(const struct call *call, int tries)
{
    double least = 0;

    for (int attempt = 0; attempt < tries; attempt++) {
        __u64 begun = now();
        for (int i = 0; i < call->count; i++)
            call->run();
        double took = (double)(now() - begun) / call->count;
        if (attempt == 0 || took < least)
            least = took;
    }
    return least;
}

int main(int argc, char **argv)
{
    line = timeline();
    other = timeline();
    pending = fence(other, 1u << 30);
    second = fence(timeline(), 1);
    signalled = fence(line, 1);
    increment();
    EXPECT(is_signalled(pending) | is_signalled(second), 0);
    EXPECT(is_signalled(signalled), 1);
    if (failures)
        return report("run");
    for (int i = 0; i < CALLS; i++)
        if (argc == 3 && !strcmp(argv[1], calls[i].name))
            for (int left = atoi(argv[2]); left > 0; left--)
                calls[i].run();
        else if (argc == 2)
            printf("%s %.0f\n", calls[i].name, least_of(&calls[i], atoi(argv[1])));
    return 0;
}
