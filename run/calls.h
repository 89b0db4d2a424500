/* Raw system calls. In a watched program, the service's own calls bypass the library, and none of them is a
 * cancellation point. */
#ifndef BIM_RUN_CALLS_H
#define BIM_RUN_CALLS_H

#include <fcntl.h>
#include <poll.h>
#include <signal.h>
#include <stddef.h>
#include <stdio.h>
#include <sys/epoll.h>
#include <sys/socket.h>
#include <sys/stat.h>
#include <sys/syscall.h>
#include <unistd.h>

#if __SIZEOF_POINTER__ != 8
#error "only for machines with 64 bits"
#endif

/* Headers older than Linux 5.1, 5.3 and 5.9 lack these numbers, which are equal on all machines. */
#ifndef SYS_pidfd_send_signal
#define SYS_pidfd_send_signal 424
#endif
#ifndef SYS_pidfd_open
#define SYS_pidfd_open 434
#endif
#ifndef SYS_close_range
#define SYS_close_range 436
#endif

static inline int call_close(int file)
{
    return syscall(SYS_close, file);
}

static inline int call_fstat(int file, struct stat *found)
{
    return syscall(SYS_fstat, file, found);
}

static inline int call_poll(struct pollfd *files, nfds_t count, int milliseconds)
{
    struct timespec limit = { milliseconds / 1000, milliseconds % 1000 * 1000000L };

    return syscall(SYS_ppoll, files, count, milliseconds < 0 ? NULL : &limit, NULL, (size_t)(_NSIG / 8));
}

static inline ssize_t call_read(int file, void *bytes, size_t length)
{
    return syscall(SYS_read, file, bytes, length);
}

static inline ssize_t call_write(int file, const void *bytes, size_t length)
{
    return syscall(SYS_write, file, bytes, length);
}

static inline ssize_t call_send(int file, const void *bytes, size_t length)
{
    return syscall(SYS_sendto, file, bytes, length, MSG_DONTWAIT | MSG_NOSIGNAL, NULL, 0);
}

static inline ssize_t call_recv(int file, void *bytes, size_t length)
{
    return syscall(SYS_recvfrom, file, bytes, length, MSG_DONTWAIT, NULL, NULL);
}

/* Calls the kernel directly: a run may be nested in another run, whose library would refuse to watch a timeline. */
static inline int call_epoll_ctl(int set, int how, int file, struct epoll_event *event)
{
    return syscall(SYS_epoll_ctl, set, how, file, event);
}

/* Opens the file behind a descriptor again, read-only. Returns -1 without /proc, or if the file's owner may not read
 * it. */
static inline int call_open_again(int file)
{
    char path[32];

    snprintf(path, sizeof path, "/proc/self/fd/%d", file);
    return syscall(SYS_openat, AT_FDCWD, path, O_RDONLY | O_CLOEXEC, 0);
}

/* Duplicates `file` to the lowest free descriptor from `least` on. */
static inline int call_dup_from(int file, int least)
{
    return syscall(SYS_fcntl, file, F_DUPFD_CLOEXEC, least);
}

#endif
