#define _GNU_SOURCE
#include "endpoints.h"

#include "calls.h"
#include "page.h"

#include <errno.h>
#include <fcntl.h>
#include <poll.h>
#include <linux/magic.h>
#include <sys/socket.h>
#include <sys/vfs.h>
#include <unistd.h>

/* Fills the smallest queue that a socket can have, so that the socket isn't writable. */
enum { QUEUE_BYTES = 2048 };

/* The bits of a number that are always 1, and always 0. */
#define NUMBER_SIGN  ((uint64_t)1 << 63)
#define NUMBER_SPARE ((uint64_t)3 << 62)

/* Headers older than Linux 5.7 lack these, and so do headers of C libraries. */
#ifndef PIPEFS_MAGIC
#define PIPEFS_MAGIC 0x50495045
#endif
#ifndef SOCKFS_MAGIC
#define SOCKFS_MAGIC 0x534F434B
#endif

static int give_up(struct endpoints *endpoints, int error)
{
    endpoints_close(endpoints);
    return error;
}

/* Draws an unpredictable number other than 0 and BIM_ANY. The low bits count up, so that the slots of a page fill in
 * turn. Returns 0 or an errno. */
static int draw(uint64_t *number)
{
    static uint64_t count;
    uint64_t drawn;

    if (syscall(SYS_getrandom, &drawn, sizeof drawn, 0) != (long)sizeof drawn)
        return errno;
    *number = NUMBER_SIGN | (drawn / PAGE_SLOTS * PAGE_SLOTS & ~NUMBER_SPARE) | count++ % PAGE_SLOTS;
    return 0;
}

/* Stores the number of an object as the access time of its inode, which each copy of a descriptor shows. Polls and
 * writes don't change it. */
static int mark_endpoints(struct endpoints *endpoints, enum bim_mark mark)
{
    struct timespec times[2] = { { .tv_nsec = 0 }, { .tv_nsec = UTIME_OMIT } };
    int error = draw(&endpoints->inode);

    if (error)
        return give_up(endpoints, error);
    times[0].tv_sec = (time_t)endpoints->inode;
    if (syscall(SYS_utimensat, endpoints->theirs, NULL, times, 0) ||
        syscall(SYS_fchmod, endpoints->theirs, mark & ~S_IFMT))
        return give_up(endpoints, errno);
    return 0;
}

int endpoints_pipe(struct endpoints *endpoints, enum bim_mark mark)
{
    int pair[2];

    if (pipe2(pair, O_CLOEXEC | O_NONBLOCK))
        return errno;
    *endpoints = (struct endpoints){ pair[0], pair[1], 0 };
    /* Reads block. Before Linux 6.15 they would set the access time, which is the object's number. */
    if (syscall(SYS_fcntl, endpoints->theirs, F_SETFL, O_NOATIME))
        return give_up(endpoints, errno);
    /* One page is the smallest pipe. Pages count towards the user's limit on pipes, beyond which all new pipes of the
     * user are small. */
    syscall(SYS_fcntl, endpoints->ours, F_SETPIPE_SZ, 1);
    return mark_endpoints(endpoints, mark);
}

/* Marks the program's end first, so that the service's end is never taken for an end that a program holds. */
int endpoints_sockets(struct endpoints *endpoints)
{
    int pair[2], least = 1, error;

    if (socketpair(AF_UNIX, SOCK_STREAM | SOCK_CLOEXEC, 0, pair))
        return errno;
    *endpoints = (struct endpoints){ pair[0], pair[1], 0 };
    error = mark_endpoints(endpoints, BIM_BUFFER_MARK);
    if (error)
        return error;
    if (syscall(SYS_setsockopt, endpoints->theirs, SOL_SOCKET, SO_SNDBUF, &least, sizeof least) ||
        syscall(SYS_fchmod, endpoints->ours, BIM_BUFFER_ENDPOINT_MARK & ~S_IFMT))
        return give_up(endpoints, errno);
    return 0;
}

void endpoints_close(struct endpoints *endpoints)
{
    call_close(endpoints->theirs);
    call_close(endpoints->ours);
    *endpoints = (struct endpoints){ -1, -1, 0 };
}

bool endpoint_is_alone(int ours)
{
    struct pollfd end = { ours, 0, 0 };

    return call_poll(&end, 1, 0) == 1 && end.revents & (POLLERR | POLLHUP);
}

/* Returns whether a descriptor is on the kernel's internal file system of pipes or of sockets; a named pipe or socket
 * is on another. The first descriptor determines the device with which all later ones are compared; another thread may
 * have stored it meanwhile. */
__attribute__((cold)) static bool is_nameless(int file, dev_t device, long kind, _Atomic dev_t *known)
{
    struct statfs found;

    if (*known)
        return device == *known;
    if (syscall(SYS_fstatfs, file, &found) || found.f_type != kind)
        return false;
    *known = device;
    return true;
}

enum bim_mark endpoint_mark(int file, uint64_t *inode)
{
    static _Atomic dev_t pipes, sockets;
    struct stat found;
    bool is_ours;

    if (call_fstat(file, &found) || !(found.st_mode & S_ISVTX))
        return 0;
    *inode = (uint64_t)found.st_atim.tv_sec;
    switch (found.st_mode) {
    case BIM_TIMELINE_MARK:
    case BIM_FILE_MARK:
        is_ours = found.st_dev == pipes || is_nameless(file, found.st_dev, PIPEFS_MAGIC, &pipes);
        break;
    case BIM_BUFFER_MARK:
    case BIM_BUFFER_ENDPOINT_MARK:
        is_ours = found.st_dev == sockets || is_nameless(file, found.st_dev, SOCKFS_MAGIC, &sockets);
        break;
    case BIM_MEMORY_MARK:
    case BIM_HEAP_MARK:
    case BIM_UDMABUF_MARK: is_ours = found.st_nlink == 0; break;
    default: is_ours = false; break;
    }
    return is_ours ? found.st_mode : 0;
}

bool endpoint_is_ours(int file)
{
    uint64_t inode;

    switch (endpoint_mark(file, &inode)) {
    case BIM_TIMELINE_MARK:
    case BIM_FILE_MARK: return (syscall(SYS_fcntl, file, F_GETFL) & O_ACCMODE) == O_WRONLY;
    case BIM_BUFFER_ENDPOINT_MARK: return true;
    default: return false;
    }
}

/* A pipe that takes no more bytes is readable already. */
void endpoint_signal(int ours)
{
    while (call_write(ours, "", 1) < 0 && errno == EINTR) {}
}

int endpoint_set_readable(int ours)
{
    return call_send(ours, "", 1) == 1 || errno == EAGAIN ? 0 : errno;
}

void endpoint_set_writable(int ours)
{
    char bytes[QUEUE_BYTES];

    while (call_recv(ours, bytes, sizeof bytes) > 0) {}
}

static bool polls(int theirs, short event)
{
    struct pollfd end = { theirs, event, 0 };

    return call_poll(&end, 1, 0) != 0;
}

int endpoint_take_readable(int theirs)
{
    char bytes[QUEUE_BYTES];

    while (call_recv(theirs, bytes, sizeof bytes) > 0) {}
    return polls(theirs, POLLIN) ? ENOMEM : 0;
}

int endpoint_take_writable(int theirs)
{
    static const char bytes[QUEUE_BYTES];

    while (call_send(theirs, bytes, sizeof bytes) > 0) {}
    return polls(theirs, POLLOUT) ? ENOMEM : 0;
}
