#define _GNU_SOURCE
#include "numbers.h"

#include "calls.h"

#include <errno.h>
#include <stdint.h>
#include <sys/param.h>
#include <sys/select.h>

/* The numbers of the standard streams are below LEAST. Own descriptors take up to FEW numbers below a limit. The
 * registry's begin in the middle of the first FD_SETSIZE numbers, since programs rarely have that many. */
enum { LEAST = STDERR_FILENO + 1, FEW = 8 };

/* Up to FD_SETSIZE numbers, the kernel's table has at most the bits of an fd_set. */
static rlim_t selectable(const struct rlimit *limit)
{
    return MIN(limit->rlim_cur, FD_SETSIZE);
}

static bool can_raise(const struct rlimit *limit)
{
    return limit->rlim_cur < limit->rlim_max;
}

struct numbers numbers_of_link(const struct rlimit *limit)
{
    rlim_t end = selectable(limit);

    if (can_raise(limit) && limit->rlim_cur <= FD_SETSIZE)
        return (struct numbers){ limit->rlim_cur, true };
    return (struct numbers){ end > LEAST + FEW ? end - FEW : LEAST, false };
}

struct numbers numbers_of_registry(const struct rlimit *limit, bool is_crowded)
{
    if (is_crowded && can_raise(limit))
        return (struct numbers){ limit->rlim_cur, true };
    return (struct numbers){ MAX(selectable(limit) / 2, LEAST), false };
}

bool numbers_borrow(struct rlimit *was)
{
    struct rlimit raised;

    if (getrlimit(RLIMIT_NOFILE, was) || !can_raise(was))
        return false;
    raised = (struct rlimit){ was->rlim_max, was->rlim_max };
    return setrlimit(RLIMIT_NOFILE, &raised) == 0;
}

void numbers_return(const struct rlimit *was)
{
    struct rlimit found;

    if (prlimit(0, RLIMIT_NOFILE, was, &found) == 0 && found.rlim_cur != was->rlim_max)
        setrlimit(RLIMIT_NOFILE, &found);
}

int numbers_open(const char *path)
{
    struct rlimit limit;
    int file = syscall(SYS_openat, AT_FDCWD, path, O_RDONLY | O_CLOEXEC, 0);

    if (file >= 0 || errno != EMFILE || !numbers_borrow(&limit))
        return file;
    file = syscall(SYS_openat, AT_FDCWD, path, O_RDONLY | O_CLOEXEC, 0);
    numbers_return(&limit);
    return file;
}

int numbers_move(int file, struct numbers to, int how)
{
    int moved = to.from <= INT32_MAX ? syscall(SYS_fcntl, file, how, (int)to.from) : -1;

    if (moved < 0 && file >= LEAST) {
        syscall(SYS_fcntl, file, F_SETFD, how == F_DUPFD ? 0 : FD_CLOEXEC);
        return file;
    }
    if (moved < 0)
        moved = syscall(SYS_fcntl, file, how, LEAST);
    if (moved >= 0)
        call_close(file);
    return moved;
}

/* The kernel's usual limit on the numbers of a process; how many numbers a word of a set has; and are polled at once. */
enum { PROBED = 1 << 20, BITS = 64, AT_ONCE = 64 };

static bool is_open(int file)
{
    return syscall(SYS_fcntl, file, F_GETFD) >= 0;
}

/* Returns whether a number, a multiple of BITS, is within the process's table. There the kernel refuses a set that has
 * a closed descriptor, and beyond it the kernel reads nothing. */
static bool is_in_table(int number)
{
    static uint64_t set[PROBED / BITS + 1];
    struct timespec none = { 0, 0 };

    if (number > PROBED)
        return false;
    if (is_open(number))
        return true;
    set[PROBED / BITS] = 1;
    return syscall(SYS_pselect6, number + 1, &set[(PROBED - number) / BITS], NULL, NULL, &none, NULL) < 0 &&
           errno == EBADF;
}

/* Returns the highest open number from `from` up to `to` that isn't own, or -1. */
static int last_open(int from, int to, bool (*is_own)(int file))
{
    struct pollfd files[AT_ONCE];
    int last = -1;

    for (int at = from; at < to; at += AT_ONCE) {
        int count = MIN(AT_ONCE, to - at);

        for (int i = 0; i < count; i++)
            files[i] = (struct pollfd){ at + i, 0, POLLNVAL };
        call_poll(files, count, 0);
        for (int i = 0; i < count; i++)
            if (!(files[i].revents & POLLNVAL) && !is_own(at + i))
                last = at + i;
    }
    return last;
}

/* A table has a power of two of numbers, from FD_SETSIZE on. */
int numbers_selected(int count, bool (*is_own)(int file), int above)
{
    int table = FD_SETSIZE, needed;

    if (count <= FD_SETSIZE)
        return count;
    while (is_in_table(table))
        table *= 2;
    if (above > FD_SETSIZE) {
        needed = last_open(FD_SETSIZE, table, is_own) + 1;
        for (table = FD_SETSIZE; table < needed;)
            table *= 2;
    }
    return MIN(count, table);
}
