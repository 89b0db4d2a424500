/* usage: selecting [within-sets]
 *
 * select with a count above FD_SETSIZE: the kernel cuts it at the size of the process's table, so a set of FD_SETSIZE
 * bits is enough for programs with few descriptors, whatever the count. Each set ends at the end of readable memory.
 * Also the numbers that a program gets: the lowest, 0 to 2 included. With "within-sets", as under valgrind, whose own
 * descriptors make the table large, counts are at most FD_SETSIZE. */
#include "kernel.h"
#include <limits.h>
#include <sys/select.h>

/* To use up more than MOST_USED numbers takes long. */
enum { DOCKERS = 1 << 20, FEW = 8, MOST_USED = 100000 };

static int most_count = INT_MAX;

/* Returns cleared memory for a set of some bits, whose end is followed by memory that can't be accessed. */
static fd_set *bounded(size_t bits)
{
    size_t page = (size_t)sysconf(_SC_PAGESIZE), bytes = bits / 8, whole = (bytes + page - 1) / page * page;
    char *at = mmap(NULL, whole + page, PROT_READ | PROT_WRITE, MAP_PRIVATE | MAP_ANONYMOUS, -1, 0);

    if (at == MAP_FAILED || mprotect(at + whole, page, PROT_NONE))
        abort();
    return (fd_set *)(void *)(at + whole - bytes);
}

/* FD_SET of a set of any size, which a fortified one refuses. */
static void put(fd_set *set, int file)
{
    ((unsigned long *)set)[file / 64] |= 1ul << file % 64;
}

static int has(const fd_set *set, int file)
{
    return ((const unsigned long *)set)[file / 64] >> file % 64 & 1;
}

/* Expects that a descriptor is readable, or isn't, by both calls. */
static void expect_readable(int count, size_t bits, int file, int wanted)
{
    fd_set *set = bounded(bits);
    struct timeval none = { 0, 0 };
    const struct timespec never = { 0, 0 };

    put(set, file);
    EXPECT(select(count, set, NULL, NULL, &none), wanted);
    EXPECT(has(set, file), wanted);
    put(set, file);
    EXPECT(pselect(count, set, NULL, NULL, &never, NULL), wanted);
    EXPECT(has(set, file), wanted);
    put(set, file);
    EXPECT(select(count, NULL, NULL, set, &none), 0);
    EXPECT(has(set, file), 0);
}

static void counts(int full, int empty)
{
    const int all[] = { FD_SETSIZE - 1, FD_SETSIZE, FD_SETSIZE + 1, getdtablesize(), 20000, 65535, 65536, 65537, DOCKERS, INT_MAX };
    struct timeval none = { 0, 0 };

    for (size_t i = 0; i < sizeof all / sizeof *all; i++) {
        if (all[i] > most_count || all[i] <= empty)
            continue;
        expect_readable(all[i], FD_SETSIZE, full, 1);
        expect_readable(all[i], FD_SETSIZE, empty, 0);
    }
    if (most_count < INT_MAX)
        return;
    FAILS(select(-1, bounded(FD_SETSIZE), NULL, NULL, &none), EINVAL);
    FAILS(select(1, (fd_set *)(void *)((char *)bounded(64) + 8), NULL, NULL, &none), EFAULT);
}

/* Sets with more bits, for descriptors above FD_SETSIZE. */
static void large_sets(int full)
{
    int t = timeline(), f = fence(t, 1), high = fcntl(full, F_DUPFD, 2 * FD_SETSIZE), file = fcntl(f, F_DUPFD, 3 * FD_SETSIZE);

    if (file >= 0 && most_count == INT_MAX) {
        expect_readable(file + 1, 8 * FD_SETSIZE, high, 1);
        expect_readable(INT_MAX, 8 * FD_SETSIZE, high, 1);
        expect_readable(INT_MAX, 8 * FD_SETSIZE, file, 0);
        inc(t, 1);
        expect_readable(INT_MAX, 8 * FD_SETSIZE, file, 1);
    }
    close(file);
    close(high);
    close(f);
    close(t);
}

/* As above, in a process whose table was never larger: the parent's table may be. */
static void in_child(void (*try)(int full, int empty), int full, int empty)
{
    pid_t child;

    fflush(stdout);
    child = fork();
    if (child == 0) {
        failures = 0;
        try(full, empty);
        fflush(stdout);
        _exit(failures != 0);
    }
    EXPECT(end_of(child), 0);
}

static void uses(int full, int empty)
{
    int t = timeline(), f = fence(t, 1);

    EXPECT(inc(t, 0), 0);
    counts(full, empty);
    expect_readable(FD_SETSIZE, FD_SETSIZE, f, 0);
    close(f);
    close(t);
    large_sets(full);
}

/* A program gets the lowest numbers, and nearly as many as its limit allows. */
static void numbers(int full, int empty)
{
    struct rlimit limit;
    int saved = fcntl(STDOUT_FILENO, F_DUPFD, empty + 1), last = full, each, t, f;

    fflush(stdout);
    for (int file = 0; file < 3; file++)
        close(file);
    EXPECT(t = timeline(), 0);
    EXPECT(f = fence(t, 1), 1);
    EXPECT(inc(t, 1), 0);
    EXPECT(dup(f), 2);
    getrlimit(RLIMIT_NOFILE, &limit);
    while (last < MOST_USED && (each = dup(f)) >= 0)
        last = each;
    HOLDS(last == MOST_USED || (errno == EMFILE && (rlim_t)last >= limit.rlim_cur - FEW));
    dup2(saved, STDOUT_FILENO);
}

int main(int argc, char **argv)
{
    const char *service = getenv("BIMPHLAI_RUN");
    int pipes[2];

    (void)argv;
    give_up_after(60);
    if (argc > 1)
        most_count = FD_SETSIZE;
    if (pipe(pipes) || write(pipes[1], "", 1) != 1)
        return 2;
    counts(pipes[0], pipes[1]);
    in_child(counts, pipes[0], pipes[1]);
    if (service && strcmp(service, "local") == 0) {
        uses(pipes[0], pipes[1]);
    } else {
        in_child(uses, pipes[0], pipes[1]);
        in_child(numbers, pipes[0], pipes[1]);
        uses(pipes[0], pipes[1]);
    }
    close(pipes[0]);
    close(pipes[1]);
    return report("selecting");
}
