/* Shared by the programs here: the kernel's interface to timelines, sync files and dma-bufs, and nothing else of
 * Bimphlai. No kernel header has the calls of sw_sync, so each program that uses them declares them. */
#ifndef KERNEL_H
#define KERNEL_H

#define _GNU_SOURCE
#include "../c/expect.h"
#include <errno.h>
#include <fcntl.h>
#include <linux/dma-buf.h>
#include <linux/dma-heap.h>
#include <linux/sync_file.h>
#include <linux/types.h>
#include <poll.h>
#include <stdint.h>
#include <stdlib.h>
#include <string.h>
#include <sys/ioctl.h>
#include <sys/mman.h>
#include <sys/prctl.h>
#include <sys/resource.h>
#include <sys/socket.h>
#include <sys/stat.h>
#include <sys/wait.h>
#include <time.h>
#include <unistd.h>

#define SW_SYNC "/sys/kernel/debug/sync/sw_sync"
#define DEV_SW_SYNC "/dev/sw_sync"
#define SYNC_INFO "/sys/kernel/debug/sync/info"
#define HEAP "/dev/dma_heap/system"

struct sw_sync_create_fence_data {
    __u32 value;
    char name[32];
    __s32 fence;
};
#define SW_SYNC_IOC_CREATE_FENCE _IOWR('W', 0, struct sw_sync_create_fence_data)
#define SW_SYNC_IOC_INC _IOW('W', 1, __u32)

/* Of Linux 6.6; older headers lack it. */
struct deadline {
    __u64 deadline_ns;
    __u64 pad;
};
#define IOC_SET_DEADLINE _IOW('>', 5, struct deadline)

enum { NAME = 32, ROWS = 64, SOON = 10000 };

/* Expects that a call fails with an errno. */
#define FAILS(call, error) EXPECT((errno = 0, (call) < 0 ? errno : 0), error)

static inline int timeline(void)
{
    return open(SW_SYNC, O_RDWR);
}

static inline int fence(int timeline, __u32 point)
{
    struct sw_sync_create_fence_data data = { .value = point };

    return ioctl(timeline, SW_SYNC_IOC_CREATE_FENCE, &data) < 0 ? -1 : data.fence;
}

static inline int inc(int timeline, __u32 n)
{
    return ioctl(timeline, SW_SYNC_IOC_INC, &n);
}

static inline int merge(const char *name, int a, int b)
{
    struct sync_merge_data data = { .fd2 = b };

    for (int i = 0; i < NAME && name[i]; i++)
        data.name[i] = name[i];
    return ioctl(a, SYNC_IOC_MERGE, &data) < 0 ? -1 : data.fence;
}

/* The kernel's information about a file, and its rows. */
struct report {
    struct sync_file_info file;
    struct sync_fence_info rows[ROWS];
};

static inline int ask(int file, struct report *report)
{
    memset(report, 0, sizeof *report);
    report->file.num_fences = ROWS;
    report->file.sync_fence_info = (__u64)(uintptr_t)report->rows;
    return ioctl(file, SYNC_IOC_FILE_INFO, &report->file);
}

/* Returns the status of a file, or 99 if it has none. */
static inline int status(int file)
{
    struct report report;

    return ask(file, &report) < 0 ? 99 : report.file.status;
}

/* Returns how many fences of a file have a status. */
static inline int count_with(int file, int wanted)
{
    struct report report;
    int count = 0;

    if (ask(file, &report) < 0)
        return -1;
    for (unsigned i = 0; i < report.file.num_fences; i++)
        count += report.rows[i].status == wanted;
    return count;
}

static inline int size(int file)
{
    struct report report;

    return ask(file, &report) < 0 ? -1 : (int)report.file.num_fences;
}

/* Returns what poll reports for a descriptor within `milliseconds`, or 0. */
static inline int ready(int fd, short events, int milliseconds)
{
    struct pollfd polled = { .fd = fd, .events = events };
    int count;

    while ((count = poll(&polled, 1, milliseconds)) < 0 && errno == EINTR) {
    }
    return count < 0 ? -errno : count == 0 ? 0 : polled.revents;
}

/* Returns whether a poll reports that a file has signalled: POLLIN, and nothing else. */
static inline int is_signalled(int file)
{
    return ready(file, POLLIN, 0) == POLLIN;
}

static inline __u64 now(void)
{
    struct timespec time;

    clock_gettime(CLOCK_MONOTONIC, &time);
    return (__u64)time.tv_sec * 1000000000u + (__u64)time.tv_nsec;
}

/* How many times longer than usual everything may take: the environment variable SLOWNESS. */
static inline int slowness(void)
{
    const char *times = getenv("SLOWNESS");

    return times ? atoi(times) : 1;
}

/* Ends the process by a signal after some seconds, more on a slow machine. */
static inline void give_up_after(unsigned seconds)
{
    alarm(seconds * (unsigned)slowness());
}

static inline void pause_for(int milliseconds)
{
    poll(NULL, 0, milliseconds);
}

/* Returns the lowest free descriptor. It is higher after a descriptor was left open. */
static inline int lowest(void)
{
    int fd = dup(0);

    close(fd);
    return fd;
}

static inline int buffer(__u64 bytes)
{
    struct dma_heap_allocation_data data = { .len = bytes, .fd_flags = O_RDWR | O_CLOEXEC };
    int heap = open(HEAP, O_RDWR | O_CLOEXEC);
    int refused = heap < 0 || ioctl(heap, DMA_HEAP_IOCTL_ALLOC, &data) < 0;

    if (heap >= 0)
        close(heap);
    return refused ? -1 : (int)data.fd;
}

static inline int export(int buffer, __u32 flags)
{
    struct dma_buf_export_sync_file data = { .flags = flags, .fd = -1 };

    return ioctl(buffer, DMA_BUF_IOCTL_EXPORT_SYNC_FILE, &data) < 0 ? -1 : data.fd;
}

static inline int import(int buffer, int file, __u32 flags)
{
    struct dma_buf_import_sync_file data = { .flags = flags, .fd = file };

    return ioctl(buffer, DMA_BUF_IOCTL_IMPORT_SYNC_FILE, &data);
}

static inline int access_buffer(int buffer, __u64 flags)
{
    struct dma_buf_sync data = { .flags = flags };

    return ioctl(buffer, DMA_BUF_IOCTL_SYNC, &data);
}

/* Raises the process's limit on descriptors to its maximum. Returns it. */
static inline rlim_t most_descriptors(void)
{
    struct rlimit limit;

    getrlimit(RLIMIT_NOFILE, &limit);
    limit.rlim_cur = limit.rlim_max;
    setrlimit(RLIMIT_NOFILE, &limit);
    return limit.rlim_cur;
}

/* Sends a descriptor to the other end of a socket. Returns 0 or -1. */
static inline int hand_over(int socket, int fd)
{
    union {
        struct cmsghdr header;
        char room[CMSG_SPACE(sizeof(int))];
    } control = { .header = { .cmsg_level = SOL_SOCKET, .cmsg_type = SCM_RIGHTS, .cmsg_len = CMSG_LEN(sizeof fd) } };
    struct iovec byte = { .iov_base = "", .iov_len = 1 };
    struct msghdr message = { .msg_iov = &byte, .msg_iovlen = 1, .msg_control = &control, .msg_controllen = sizeof control };

    memcpy(CMSG_DATA(&control.header), &fd, sizeof fd);
    return sendmsg(socket, &message, MSG_NOSIGNAL | MSG_DONTWAIT) == 1 ? 0 : -1;
}

/* Receives a descriptor from a socket. Returns it, or -1. */
static inline int take_over(int socket, int flags)
{
    union {
        struct cmsghdr header;
        char room[CMSG_SPACE(sizeof(int))];
    } control;
    char byte;
    struct iovec bytes = { .iov_base = &byte, .iov_len = 1 };
    struct msghdr message = { .msg_iov = &bytes, .msg_iovlen = 1, .msg_control = &control, .msg_controllen = sizeof control };
    struct cmsghdr *header;
    int fd = -1;

    if (recvmsg(socket, &message, MSG_CMSG_CLOEXEC | flags) != 1)
        return -1;
    header = CMSG_FIRSTHDR(&message);
    if (header && header->cmsg_type == SCM_RIGHTS)
        memcpy(&fd, CMSG_DATA(header), sizeof fd);
    return fd;
}

/* Returns the exit status of a child once it has ended, as a shell does. */
static inline int end_of(pid_t child)
{
    int how;

    while (waitpid(child, &how, 0) < 0 && errno == EINTR) {
    }
    return WIFEXITED(how) ? WEXITSTATUS(how) : 128 + WTERMSIG(how);
}

#endif
