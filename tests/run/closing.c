/* usage: closing [raw]
 *
 * All ways in which one process closes: the pending points of a timeline are cancelled at its last close, not before.
 * With "raw", also a system call that closes all descriptors at once. */
#include "kernel.h"
#include <dirent.h>
#include <dlfcn.h>
#include <sys/syscall.h>

#ifndef SYS_close_range
#define SYS_close_range 436
#endif

static int is_cancelled(int file)
{
    return is_signalled(file) && status(file) == -ENOENT;
}

static void plainly(void)
{
    int t = timeline(), f = fence(t, 1), reached = fence(t, 0);

    EXPECT(is_signalled(f), 0);
    EXPECT(close(t), 0);
    HOLDS(is_cancelled(f));
    EXPECT(status(reached), 1);
    close(f);
    close(reached);
    FAILS(close(f), EBADF);
}

static void with_copies(void)
{
    int t = timeline(), f = fence(t, 2);
    int copies[] = { dup(t), fcntl(t, F_DUPFD, 40), fcntl(t, F_DUPFD_CLOEXEC, 50), dup2(t, 60), dup3(t, 70, O_CLOEXEC) };

    close(t);
    for (int i = 0; i < 5; i++) {
        EXPECT(is_signalled(f), 0);
        EXPECT(inc(copies[i], 0), 0);
        if (i < 4)
            close(copies[i]);
    }
    int last = fence(copies[4], 1);
    EXPECT(inc(copies[4], 1), 0);
    close(copies[4]);
    HOLDS(is_cancelled(f));
    EXPECT(status(last), 1);
    close(f);
    close(last);
}

/* Another descriptor takes the number of the last descriptor. */
static void taken_over(void)
{
    int t = timeline(), u = timeline(), v = timeline(), f = fence(t, 1), g = fence(u, 1), h = fence(v, 1);

    EXPECT(dup2(1, t), t);
    HOLDS(is_cancelled(f));
    EXPECT(dup3(1, u, O_CLOEXEC), u);
    HOLDS(is_cancelled(g));
    /* Another of our descriptors takes the number, and then has two; a descriptor duplicated onto itself closes
     * nothing. */
    int w = timeline(), k = fence(w, 1);
    EXPECT(dup2(v, v), v);
    EXPECT(is_signalled(h), 0);
    EXPECT(dup2(w, v), v);
    HOLDS(is_cancelled(h));
    close(w);
    EXPECT(is_signalled(k), 0);
    EXPECT(inc(v, 1), 0);
    EXPECT(status(k), 1);
    int files[] = { t, u, v, f, g, h, k };
    for (int i = 0; i < 7; i++)
        close(files[i]);
}

/* A close that fails, and a close of another file, change nothing. */
static void in_vain(void)
{
    int t = timeline(), f = fence(t, 1), other = dup(1);

    FAILS(close(-1), EBADF);
    FAILS(dup2(-1, t), EBADF);
    FAILS(dup3(t, t, 0), EINVAL);
    close(other);
    FAILS(close(other), EBADF);
    EXPECT(is_signalled(f), 0);
    EXPECT(inc(t, 1), 0);
    EXPECT(status(f), 1);
    close(f);
    close(t);
}

/* Closings without a call of close are noticed soon. */
static void unseen(void)
{
    int t = timeline(), f = fence(t, 1), u = timeline(), g = fence(u, 1);
    FILE *stream = fdopen(t, "r");

    HOLDS(stream);
    if (stream)
        fclose(stream);
    EXPECT(ready(f, POLLIN, SOON), POLLIN);
    EXPECT(status(f), -ENOENT);
    syscall(SYS_close, u);
    EXPECT(ready(g, POLLIN, SOON), POLLIN);
    EXPECT(status(g), -ENOENT);
    close(f);
    close(g);
}

/* Closes many at once. */
static void ranges(void)
{
    int t = timeline(), u = timeline(), f = fence(t, 1), g = fence(u, 1);

    EXPECT(dup2(t, 200), 200);
    EXPECT(dup2(u, 201), 201);
    close(t);
    close(u);
    EXPECT(is_signalled(f) + is_signalled(g), 0);
    if (syscall(SYS_close_range, 200, 300, 0) == 0) {
        EXPECT(ready(f, POLLIN, SOON), POLLIN);
        EXPECT(ready(g, POLLIN, SOON), POLLIN);
        EXPECT(status(f), -ENOENT);
        EXPECT(status(g), -ENOENT);
    }
    close(200);
    close(201);
    close(f);
    close(g);
}

/* A program that closes all numbers, used or not, has no descriptor left, and can continue. */
static void all_numbers(void)
{
    int first = lowest(), t = timeline(), f = fence(t, 1), kept = dup2(f, 1000);

    EXPECT(status(t) + status(f), 99);
    for (int fd = first; fd < 1000; fd++)
        close(fd);
    EXPECT(status(kept), -ENOENT);
    close(kept);
    t = timeline(), f = fence(t, 1);
    EXPECT(inc(t, 1), 0);
    EXPECT(is_signalled(f), 1);
    close(f);
    close(t);
}

/* Closes ranges through the C library, if it has the call: what was closed is cancelled before it returns. */
static void ranges_by_library(void)
{
    int (*close_numbers)(unsigned first, unsigned last, int flags);
    void (*close_from)(int first);
    void *found[] = { dlsym(RTLD_DEFAULT, "close_range"), dlsym(RTLD_DEFAULT, "closefrom") };
    int t = timeline(), u = timeline(), f = fence(t, 1), g = fence(u, 1);

    if (!found[0] || !found[1])
        return;
    memcpy(&close_numbers, &found[0], sizeof close_numbers);
    memcpy(&close_from, &found[1], sizeof close_from);
    EXPECT(dup2(t, 200), 200);
    close(t);
    FAILS(close_numbers(201, 200, 0), EINVAL);
    EXPECT(is_signalled(f), 0);
    if (close_numbers(200, 300, 0) == 0)
        HOLDS(is_cancelled(f));
    close(f);
    EXPECT(dup2(g, 300), 300);
    close(g);
    EXPECT(dup2(u, 301), 301);
    close(u);
    close_from(301);
    HOLDS(is_cancelled(300));
    close_from(300);
    FAILS(close(300), EBADF);
    int v = timeline(), h = fence(v, 1);
    EXPECT(inc(v, 1), 0);
    EXPECT(is_signalled(h), 1);
    close(h);
    close(v);
}

/* Stores, as bits, which descriptors a process has besides the program's own. */
static int others_of(unsigned char *others, int count, int own)
{
    DIR *folder = opendir("/proc/self/fd");
    struct dirent *entry;
    int found = 0;

    memset(others, 0, (size_t)count);
    while (folder && (entry = readdir(folder))) {
        int fd = atoi(entry->d_name);
        if (fd > own && fd < count && fd != dirfd(folder))
            found += others[fd] = 1;
    }
    if (folder)
        closedir(folder);
    return found;
}

/* A program can neither close a descriptor that it hasn't opened nor take its number. */
static void others_numbers(void)
{
    enum { NUMBERS = 1 << 17 };
    static unsigned char others[NUMBERS];
    int t = timeline(), f = fence(t, 1), before = others_of(others, NUMBERS, f);

    for (int fd = f + 1; fd < NUMBERS; fd++)
        if (others[fd]) {
            FAILS(close(fd), EBADF);
            EXPECT(dup2(1, fd), -1);
            EXPECT(dup3(1, fd, O_CLOEXEC), -1);
        }
    EXPECT(others_of(others, NUMBERS, f), before);
    EXPECT(status(f), 0);
    EXPECT(inc(t, 1), 0);
    EXPECT(status(f), 1);
    close(f);
    close(t);
}

/* A program that closes all descriptors without the C library gets a new connection. */
static void all_at_once(void)
{
    int t = timeline(), f = fence(t, 1), most = f;

    EXPECT(inc(t, 0), 0);
    if (syscall(SYS_close_range, most + 1, ~0u, 0))
        return;
    EXPECT(status(f), 0);
    int g = fence(t, 2);
    EXPECT(inc(t, 1), 0);
    EXPECT(is_signalled(f), 1);
    EXPECT(is_signalled(g), 0);
    if (syscall(SYS_close_range, g + 1, ~0u, 0) == 0)
        EXPECT(inc(t, 1), 0);
    EXPECT(is_signalled(g), 1);
    if (syscall(SYS_close_range, g + 1, ~0u, 0) == 0)
        EXPECT(size(merge("", f, g)), 1);
    int files[] = { f, g, t, g + 1 };
    for (int i = 0; i < 4; i++)
        close(files[i]);
}

/* Files outlive their source files, and timelines outlive files. */
static void in_any_order(void)
{
    int t = timeline(), a = fence(t, 1), b = fence(t, 2), both = merge("both", a, b), again = merge("again", both, both);

    close(a);
    close(b);
    EXPECT(is_signalled(both), 0);
    close(both);
    inc(t, 1);
    EXPECT(status(again), 0);
    inc(t, 1);
    EXPECT(status(again), 1);
    int late = fence(t, 3);
    close(again);
    close(late);
    EXPECT(inc(t, 1), 0);
    close(t);
    /* The number is reused, and shows nothing of the former object. */
    int u = timeline(), f = fence(u, 1);
    EXPECT(is_signalled(f), 0);
    EXPECT(size(f), 1);
    close(f);
    close(u);
}

int main(int argc, char **argv)
{
    int before = lowest();

    give_up_after(30);
    plainly();
    with_copies();
    taken_over();
    in_vain();
    unseen();
    ranges();
    ranges_by_library();
    all_numbers();
    others_numbers();
    if (argc > 1 && !strcmp(argv[1], "raw"))
        all_at_once();
    in_any_order();
    EXPECT(lowest(), before);
    return report("closing");
}
