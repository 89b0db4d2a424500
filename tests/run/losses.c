/* usage: losses [local]
 *
 * Once no process holds the other end of a file or a buffer, its waits report a hang-up, which libsync takes for a
 * signal: no call of a served program may return then. A pipe with a file's mode represents a file whose service is
 * gone. An epoll set doesn't say which file has hung up, so while the service is alive the hang-up isn't a file's, and
 * is reported; unguarded.c tries a service that is lost. */
#include "kernel.h"
#include <pthread.h>
#include <sys/epoll.h>
#include <sys/select.h>
#include <sys/syscall.h>

enum { FILE_MODE = S_ISVTX | 0400, TIMELINE_MODE = S_ISVTX | 0600, BUFFER_MODE = S_ISVTX | 0600, LOST = 123, RETURNED = 1 };

static int lost_pipe(mode_t mode)
{
    int ends[2];

    if (pipe2(ends, O_CLOEXEC) || (mode && fchmod(ends[0], mode)))
        abort();
    syscall(SYS_close, ends[1]);
    return ends[0];
}

static int lost_buffer(void)
{
    int ends[2];

    if (socketpair(AF_UNIX, SOCK_STREAM | SOCK_CLOEXEC, 0, ends) || fchmod(ends[0], BUFFER_MODE))
        abort();
    syscall(SYS_close, ends[1]);
    return ends[0];
}

int __poll_chk(struct pollfd *files, nfds_t count, int milliseconds, size_t room);
int __ppoll_chk(struct pollfd *files, nfds_t count, const struct timespec *limit, const sigset_t *mask, size_t room);

static const struct timespec longest = { .tv_sec = 5 };

static int by_poll(int fd)
{
    return poll(&(struct pollfd){ .fd = fd, .events = POLLIN }, 1, SOON);
}

static int by_ppoll(int fd)
{
    return ppoll(&(struct pollfd){ .fd = fd, .events = POLLIN }, 1, &longest, NULL);
}

static int by_poll_chk(int fd)
{
    return __poll_chk(&(struct pollfd){ .fd = fd, .events = POLLIN }, 1, SOON, sizeof(struct pollfd));
}

static int by_ppoll_chk(int fd)
{
    return __ppoll_chk(&(struct pollfd){ .fd = fd, .events = POLLIN }, 1, &longest, NULL, sizeof(struct pollfd));
}

static int by_select(int fd)
{
    struct timeval limit = { .tv_sec = 5 };
    fd_set set;

    FD_ZERO(&set);
    FD_SET(fd, &set);
    return select(fd + 1, &set, NULL, NULL, &limit);
}

static int by_pselect(int fd)
{
    fd_set set;

    FD_ZERO(&set);
    FD_SET(fd, &set);
    return pselect(fd + 1, &set, NULL, NULL, &longest, NULL);
}

static int by_select_to_write(int fd)
{
    struct timeval limit = { .tv_sec = 1 };
    fd_set set;

    FD_ZERO(&set);
    FD_SET(fd, &set);
    return select(fd + 1, NULL, &set, NULL, &limit);
}

static int set_of(int fd)
{
    int group = epoll_create1(EPOLL_CLOEXEC);
    struct epoll_event event = { .events = EPOLLIN, .data = { .u64 = 7777 } };

    return epoll_ctl(group, EPOLL_CTL_ADD, fd, &event) ? -1 : group;
}

static int by_epoll(int fd)
{
    struct epoll_event event;

    return epoll_wait(set_of(fd), &event, 1, SOON);
}

static int by_epoll_pwait(int fd)
{
    struct epoll_event event;

    return epoll_pwait(set_of(fd), &event, 1, SOON, NULL);
}

static int by_access(int fd)
{
    return access_buffer(fd, DMA_BUF_SYNC_START | DMA_BUF_SYNC_READ) == 0;
}

/* Returns the exit status of a child that makes a call. */
static int end_after(int (*call)(int fd), int fd)
{
    pid_t child = fork();

    if (child == 0) {
        alarm(10);
        /* The child prints why it ends, which is expected here. */
        dup2(open("/dev/null", O_WRONLY), STDERR_FILENO);
        _exit(call(fd) > 0 ? RETURNED : 0);
    }
    return end_of(child);
}

static void lost(int is_local)
{
    static int (*const calls[])(int) = { by_poll, by_ppoll, by_poll_chk, by_ppoll_chk, by_select, by_pselect, by_epoll, by_epoll_pwait };
    enum { CALLS = sizeof calls / sizeof *calls, OF_SETS = 2 };
    int file = lost_pipe(FILE_MODE), line = lost_pipe(TIMELINE_MODE), b = lost_buffer(), own = lost_pipe(0);

    for (int i = 0; i < CALLS; i++) {
        int end = is_local || i < CALLS - OF_SETS ? LOST : RETURNED;
        EXPECT(end_after(calls[i], file), end);
        EXPECT(end_after(calls[i], b), end);
        EXPECT(end_after(calls[i], own), RETURNED);
    }
    EXPECT(end_after(by_poll, line), LOST);
    EXPECT(end_after(by_select_to_write, b), LOST);
    EXPECT(end_after(by_access, b), LOST);
    int files[] = { file, line, b, own };
    for (int i = 0; i < 4; i++)
        syscall(SYS_close, files[i]);
}

/* A hang-up of another descriptor, beside a served file, is reported as usual. */
static void beside(void)
{
    int t = timeline(), f = fence(t, 1), own = lost_pipe(0), group = set_of(f);
    struct pollfd files[] = { { .fd = f, .events = POLLIN }, { .fd = own, .events = POLLIN } };
    struct epoll_event event = { .events = EPOLLIN };

    EXPECT(poll(files, 2, SOON), 1);
    EXPECT(files[0].revents, 0);
    EXPECT(files[1].revents, POLLHUP);
    EXPECT(epoll_ctl(group, EPOLL_CTL_ADD, own, &event), 0);
    EXPECT(epoll_wait(group, &event, 1, SOON), 1);
    EXPECT(event.events, EPOLLHUP);
    EXPECT(is_signalled(f), 0);
    close(group);
    close(own);
    close(f);
    close(t);
}

static void *access_it(void *buffer)
{
    return (void *)(intptr_t)access_buffer(*(int *)buffer, DMA_BUF_SYNC_START | DMA_BUF_SYNC_READ);
}

/* Closes the other ends of descriptors from a number on. With --local, these are in this process. */
static void close_ends_of(int fd)
{
    struct stat wanted, found;

    for (int left = SOON; syscall(SYS_fstat, fd, &wanted) && left > 0; left--)
        pause_for(1);
    pause_for(20);
    for (int other = 512; other < 1024; other++)
        if (syscall(SYS_fstat, other, &found) == 0 && found.st_ino == wanted.st_ino)
            syscall(SYS_close, other);
}

/* A wait for a buffer ends when a file's other end closes. */
static int waits_in_vain(int unused)
{
    int t = timeline(), f = fence(t, 1), b = buffer(1), next;
    pthread_t thread;
    void *result;

    (void)unused;
    import(b, f, DMA_BUF_SYNC_WRITE);
    next = lowest();
    pthread_create(&thread, NULL, access_it, &b);
    close_ends_of(next);
    pthread_join(thread, &result);
    return result == NULL;
}

int main(int argc, char **argv)
{
    int is_local = argc > 1 && !strcmp(argv[1], "local");

    give_up_after(60);
    lost(is_local);
    beside();
    if (is_local)
        EXPECT(end_after(waits_in_vain, 0), LOST);
    return report("losses");
}
