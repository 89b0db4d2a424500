/* Buffers from the heap: their memory, their fences, and waits for them. */
#include "kernel.h"
#include <pthread.h>
#include <signal.h>
#include <sys/epoll.h>

enum { PAGE = 4096, LATER = 30 };

struct raise {
    pthread_t thread;
    int timeline;
};

static struct raise raised;

static void allocation(void)
{
    int heap = open(HEAP, O_RDWR), before = lowest();
    struct dma_heap_allocation_data good = { .len = PAGE, .fd_flags = O_RDWR | O_CLOEXEC }, data = good;

    data.fd = 3;
    FAILS(ioctl(heap, DMA_HEAP_IOCTL_ALLOC, &data), EINVAL);
    data = good;
    data.fd_flags = ~0u;
    FAILS(ioctl(heap, DMA_HEAP_IOCTL_ALLOC, &data), EINVAL);
    data = good;
    data.heap_flags = 1;
    FAILS(ioctl(heap, DMA_HEAP_IOCTL_ALLOC, &data), EINVAL);
    data = good;
    data.len = 0;
    FAILS(ioctl(heap, DMA_HEAP_IOCTL_ALLOC, &data), EINVAL);
    FAILS(ioctl(heap, DMA_HEAP_IOCTL_ALLOC, NULL), EFAULT);
    FAILS(ioctl(heap, _IO('H', 9), NULL), EINVAL);
    FAILS(ioctl(0, DMA_HEAP_IOCTL_ALLOC, &good), ENOTTY);
    FAILS(ioctl(-1, DMA_HEAP_IOCTL_ALLOC, &good), EBADF);
    EXPECT(lowest(), before);
    data = good;
    EXPECT(ioctl(heap, DMA_HEAP_IOCTL_ALLOC, &data), 0);
    EXPECT(fcntl((int)data.fd, F_GETFD), FD_CLOEXEC);
    close((int)data.fd);
    good.fd_flags = O_RDWR;
    EXPECT(ioctl(heap, DMA_HEAP_IOCTL_ALLOC, &good), 0);
    EXPECT(fcntl((int)good.fd, F_GETFD), 0);
    close((int)good.fd);
    close(heap);
}

static void memory(void)
{
    int b = buffer(PAGE + 1);

    EXPECT(lseek(b, 0, SEEK_END), 2 * PAGE);
    EXPECT(lseek(b, 0, SEEK_SET), 0);
    char *one = mmap(NULL, 2 * PAGE, PROT_READ | PROT_WRITE, MAP_SHARED, b, 0);
    char *other = mmap(NULL, PAGE, PROT_READ, MAP_SHARED, b, PAGE);
    HOLDS(one != MAP_FAILED && other != MAP_FAILED);
    if (one == MAP_FAILED || other == MAP_FAILED)
        return;
    EXPECT(one[0], 0);
    EXPECT(access_buffer(b, DMA_BUF_SYNC_START | DMA_BUF_SYNC_RW), 0);
    one[PAGE + 7] = 42;
    EXPECT(access_buffer(b, DMA_BUF_SYNC_END | DMA_BUF_SYNC_RW), 0);
    EXPECT(other[7], 42);
    close(b);
    EXPECT(other[7], 42);
    munmap(one, 2 * PAGE);
    munmap(other, PAGE);
}

static void *raise_later(void *given)
{
    struct raise *raise = given;

    pause_for(LATER);
    inc(raise->timeline, 1);
    return NULL;
}

static void begin(struct raise *raise, int timeline)
{
    raise->timeline = timeline;
    EXPECT(pthread_create(&raise->thread, NULL, raise_later, raise), 0);
}

static int since(__u64 begun)
{
    return (int)((now() - begun) / 1000000);
}

/* Makes a buffer, opened with `flags`. */
static int buffer_of(__u32 flags)
{
    struct dma_heap_allocation_data data = { .len = 2 * PAGE, .fd_flags = flags | O_CLOEXEC };
    int heap = open(HEAP, O_RDWR);

    EXPECT(ioctl(heap, DMA_HEAP_IOCTL_ALLOC, &data), 0);
    close(heap);
    return (int)data.fd;
}

static int fails_to_map(size_t length, int protection, int flags, int fd, off_t from)
{
    void *mapped = mmap(NULL, length, protection, flags, fd, from);

    if (mapped == MAP_FAILED)
        return errno;
    munmap(mapped, length);
    return 0;
}

/* Mappings that fail: past the end, with more access than the buffer is open for, and private copies of several
 * pages. */
static void wrong_maps(void)
{
    int b = buffer_of(O_RDWR), written = buffer_of(O_WRONLY), fixed = buffer_of(O_RDONLY);
    struct stat status;

    EXPECT(fails_to_map(2 * PAGE, PROT_READ, MAP_SHARED, b, 0), 0);
    EXPECT(fails_to_map(3 * PAGE, PROT_READ, MAP_SHARED, b, 0), EINVAL);
    EXPECT(fails_to_map(2 * PAGE + 1, PROT_READ, MAP_SHARED, b, 0), EINVAL);
    EXPECT(fails_to_map(2 * PAGE, PROT_READ, MAP_SHARED, b, PAGE), EINVAL);
    EXPECT(fails_to_map(PAGE, PROT_READ, MAP_SHARED, b, 2 * PAGE), EINVAL);
    EXPECT(fails_to_map(PAGE, PROT_READ, MAP_SHARED, b, 1), EINVAL);
    EXPECT(fails_to_map(0, PROT_READ, MAP_SHARED, b, 0), EINVAL);
    EXPECT(fails_to_map(PAGE, PROT_READ | PROT_WRITE, MAP_PRIVATE, b, PAGE), 0);
    EXPECT(fails_to_map(2 * PAGE, PROT_READ | PROT_WRITE, MAP_PRIVATE, b, 0), EINVAL);
    EXPECT(fails_to_map(PAGE, PROT_READ, MAP_SHARED, written, 0), EACCES);
    EXPECT(fails_to_map(PAGE, PROT_WRITE, MAP_SHARED, written, 0), EACCES);
    EXPECT(fails_to_map(PAGE, PROT_READ | PROT_WRITE, MAP_SHARED, fixed, 0), EACCES);
    EXPECT(fails_to_map(PAGE, PROT_READ | PROT_WRITE, MAP_PRIVATE, fixed, 0), 0);
    char *seen = mmap(NULL, PAGE, PROT_READ, MAP_SHARED, fixed, 0);
    HOLDS(seen != MAP_FAILED);
    FAILS(mprotect(seen, PAGE, PROT_READ | PROT_WRITE), EACCES);
    munmap(seen, PAGE);
    EXPECT(fstat(fixed, &status), 0);
    EXPECT(status.st_size, 2 * PAGE);
    FAILS(lseek(b, 1, SEEK_SET), EINVAL);
    FAILS(lseek(b, 0, SEEK_CUR), EINVAL);
    FAILS(lseek(b, -1, SEEK_END), EINVAL);
    EXPECT(fchmod(b, 0700), 0);
    EXPECT(lseek(b, 0, SEEK_END), 2 * PAGE);
    close(b);
    close(written);
    close(fixed);
}

int __fxstat(int version, int file, struct stat *found);

/* All calls show the size of a buffer. */
static void sizes(int b, off_t size)
{
    struct stat found = { .st_size = 0 };
    struct statx more = { .stx_size = 0 };

    EXPECT(fstat(b, &found), 0);
    EXPECT(found.st_size, size);
    found.st_size = 0;
    EXPECT(fstatat(b, "", &found, AT_EMPTY_PATH), 0);
    EXPECT(found.st_size, size);
    found.st_size = 0;
    EXPECT(__fxstat(1, b, &found), 0);
    EXPECT(found.st_size, size);
    EXPECT(statx(b, "", AT_EMPTY_PATH, STATX_BASIC_STATS, &more), 0);
    EXPECT(more.stx_size, size);
}

/* A process without free descriptors can make all calls that need none in Linux. */
static void without_numbers(void)
{
    int t = timeline(), f = fence(t, 1), b = buffer(PAGE), last = dup(0);
    struct rlimit before, full;

    import(b, f, DMA_BUF_SYNC_WRITE);
    getrlimit(RLIMIT_NOFILE, &before);
    full = before;
    full.rlim_cur = (rlim_t)last + 1;
    EXPECT(setrlimit(RLIMIT_NOFILE, &full), 0);
    FAILS(dup(0), EMFILE);
    EXPECT(fails_to_map(PAGE, PROT_READ | PROT_WRITE, MAP_SHARED, b, 0), 0);
    EXPECT(lseek(b, 0, SEEK_END), PAGE);
    sizes(b, PAGE);
    EXPECT(access_buffer(b, DMA_BUF_SYNC_START | DMA_BUF_SYNC_WRITE | DMA_BUF_SYNC_END), 0);
    FAILS(export(b, DMA_BUF_SYNC_READ), EMFILE);
    FAILS(export(b, 0), EINVAL);
    struct raise raise;
    __u64 begun = now();
    begin(&raise, t);
    EXPECT(access_buffer(b, DMA_BUF_SYNC_START | DMA_BUF_SYNC_WRITE), 0);
    HOLDS(since(begun) >= LATER);
    pthread_join(raise.thread, NULL);
    getrlimit(RLIMIT_NOFILE, &full);
    EXPECT(full.rlim_cur, last + 1);
    EXPECT(setrlimit(RLIMIT_NOFILE, &before), 0);
    int files[] = { t, f, b, last };
    for (int i = 0; i < 4; i++)
        close(files[i]);
}

static void wrong_calls(void)
{
    int b = buffer(PAGE), t = timeline(), f = fence(t, 1), before = lowest();
    __u32 one = 1;

    FAILS(export(b, 0), EINVAL);
    FAILS(export(b, 4), EINVAL);
    FAILS(export(b, DMA_BUF_SYNC_READ | 8), EINVAL);
    FAILS(import(b, f, 0), EINVAL);
    FAILS(import(b, f, 8), EINVAL);
    FAILS(import(b, -1, DMA_BUF_SYNC_READ), EINVAL);
    FAILS(import(b, t, DMA_BUF_SYNC_READ), EINVAL);
    FAILS(import(b, b, DMA_BUF_SYNC_READ), EINVAL);
    FAILS(access_buffer(b, 0), EINVAL);
    FAILS(access_buffer(b, DMA_BUF_SYNC_END), EINVAL);
    FAILS(access_buffer(b, DMA_BUF_SYNC_RW | 8), EINVAL);
    FAILS(ioctl(b, DMA_BUF_IOCTL_EXPORT_SYNC_FILE, NULL), EFAULT);
    FAILS(ioctl(b, DMA_BUF_IOCTL_IMPORT_SYNC_FILE, NULL), EFAULT);
    FAILS(ioctl(b, DMA_BUF_IOCTL_SYNC, NULL), EFAULT);
    FAILS(ioctl(b, SW_SYNC_IOC_INC, &one), ENOTTY);
    FAILS(ioctl(b, FIONREAD, &one), ENOTTY);
    FAILS(ioctl(b, SYNC_IOC_FILE_INFO, &(struct sync_file_info){ .num_fences = 0 }), ENOTTY);
    FAILS(ioctl(b, SYNC_IOC_MERGE, &(struct sync_merge_data){ .fd2 = f }), ENOTTY);
    FAILS(merge("", f, b), ENOENT);
    FAILS(export(f, DMA_BUF_SYNC_READ), ENOTTY);
    FAILS(export(t, DMA_BUF_SYNC_READ), ENOTTY);
    FAILS(import(f, f, DMA_BUF_SYNC_READ), ENOTTY);
    FAILS(access_buffer(f, DMA_BUF_SYNC_RW), ENOTTY);
    FAILS(export(-1, DMA_BUF_SYNC_READ), EBADF);
    EXPECT(lowest(), before);
    EXPECT(ready(b, POLLIN | POLLOUT, 0), POLLIN | POLLOUT);
    close(f);
    close(t);
    close(b);
}

static void names(void)
{
    char longest[NAME], too_long[NAME + 1];
    int b = buffer(PAGE), t = timeline(), f = fence(t, 1);

    memset(longest, 'n', sizeof longest);
    longest[NAME - 1] = 0;
    memset(too_long, 'n', sizeof too_long);
    too_long[NAME] = 0;
    EXPECT(ioctl(b, DMA_BUF_SET_NAME_B, "frame"), 0);
    EXPECT(ioctl(b, DMA_BUF_SET_NAME_A, longest), 0);
    FAILS(ioctl(b, DMA_BUF_SET_NAME_B, too_long), EINVAL);
    FAILS(ioctl(b, DMA_BUF_SET_NAME_B, NULL), EFAULT);
    FAILS(ioctl(f, DMA_BUF_SET_NAME_B, "frame"), ENOTTY);
    close(f);
    close(t);
    close(b);
}

/* Readers after a writer wait only for the writer. */
static void readers_of_written(void)
{
    int t = timeline(), writer = fence(t, 1), reader = fence(t, 2), b = buffer(PAGE);

    EXPECT(import(b, writer, DMA_BUF_SYNC_WRITE), 0);
    EXPECT(import(b, reader, DMA_BUF_SYNC_READ), 0);
    EXPECT(ready(b, POLLIN | POLLOUT, 0), 0);
    inc(t, 1);
    EXPECT(ready(b, POLLIN | POLLOUT, 0), POLLIN);
    /* A later writer makes readers wait again. */
    int later = fence(t, 3);
    EXPECT(import(b, later, DMA_BUF_SYNC_RW), 0);
    EXPECT(ready(b, POLLIN | POLLOUT, 0), 0);
    inc(t, 1);
    EXPECT(ready(b, POLLIN | POLLOUT, 0), 0);
    close(t);
    EXPECT(ready(b, POLLIN | POLLOUT, 0), POLLIN | POLLOUT);
    int files[] = { writer, reader, later, b };
    for (int i = 0; i < 4; i++)
        close(files[i]);
}

/* A writer's fence makes all accesses wait, and a reader's fence only writers. */
static void usages(void)
{
    int t = timeline(), writer = fence(t, 2), reader = fence(t, 1), b = buffer(PAGE);

    EXPECT(ready(b, POLLIN, 0), POLLIN);
    EXPECT(ready(b, POLLOUT, 0), POLLOUT);
    EXPECT(ready(b, 0, 0), 0);
    EXPECT(import(b, reader, DMA_BUF_SYNC_READ), 0);
    close(reader);
    EXPECT(ready(b, POLLIN | POLLOUT, 0), POLLIN);
    EXPECT(ready(b, POLLOUT, 0), 0);
    EXPECT(import(b, writer, DMA_BUF_SYNC_WRITE), 0);
    EXPECT(ready(b, POLLIN | POLLOUT, 0), 0);
    inc(t, 1);
    EXPECT(ready(b, POLLIN | POLLOUT, 0), 0);
    inc(t, 1);
    EXPECT(ready(b, POLLIN | POLLOUT, 0), POLLIN | POLLOUT);
    EXPECT(is_signalled(writer), 1);
    close(writer);
    close(t);
    close(b);
}

/* An export for reading has the writers' fences, and an export for writing has all. */
static void exports(void)
{
    int t = timeline(), u = timeline(), v = timeline(), b = buffer(PAGE);
    int reader = fence(t, 1), writer = fence(u, 1), both = fence(v, 1);
    int idle = export(b, DMA_BUF_SYNC_WRITE);

    EXPECT(fcntl(idle, F_GETFD), FD_CLOEXEC);
    EXPECT(is_signalled(idle), 1);
    EXPECT(status(idle), 1);
    EXPECT(import(b, reader, DMA_BUF_SYNC_READ), 0);
    EXPECT(import(b, writer, DMA_BUF_SYNC_WRITE), 0);
    int to_read = export(b, DMA_BUF_SYNC_READ), to_write = export(b, DMA_BUF_SYNC_WRITE);
    EXPECT(import(b, both, DMA_BUF_SYNC_RW), 0);
    int later = export(b, DMA_BUF_SYNC_RW), by_reader = export(b, DMA_BUF_SYNC_READ);
    EXPECT(size(to_read), 1);
    EXPECT(size(to_write), 2);
    EXPECT(size(later), 3);
    EXPECT(size(by_reader), 2);
    inc(u, 1);
    EXPECT(is_signalled(to_read), 1);
    EXPECT(is_signalled(to_write), 0);
    inc(t, 1);
    EXPECT(is_signalled(to_write), 1);
    EXPECT(is_signalled(later) + is_signalled(by_reader), 0);
    close(v);
    EXPECT(status(later), -ENOENT);
    EXPECT(is_signalled(by_reader), 1);
    EXPECT(ready(b, POLLIN | POLLOUT, 0), POLLIN | POLLOUT);
    int files[] = { t, u, b, reader, writer, both, idle, to_read, to_write, later, by_reader };
    for (int i = 0; i < 11; i++)
        close(files[i]);
    EXPECT(status(0), 99);
}


/* An access waits for its fences, and any of several fences wakes a poll. */
static void waits(void)
{
    int t = timeline(), b = buffer(PAGE), other = buffer(PAGE), pipes[2], reader = fence(t, 1), writer = fence(t, 2), never = fence(t, 9);
    struct pollfd polled[] = { { .events = POLLIN }, { .fd = b, .events = POLLIN }, { .fd = never, .events = POLLIN } };
    struct raise raise;
    __u64 begun = now();

    EXPECT(pipe(pipes), 0);
    polled[0].fd = pipes[0];
    import(b, reader, DMA_BUF_SYNC_READ);
    EXPECT(access_buffer(b, DMA_BUF_SYNC_START | DMA_BUF_SYNC_READ), 0);
    begin(&raise, t);
    EXPECT(access_buffer(b, DMA_BUF_SYNC_START | DMA_BUF_SYNC_WRITE), 0);
    HOLDS(since(begun) >= LATER);
    pthread_join(raise.thread, NULL);
    import(b, writer, DMA_BUF_SYNC_WRITE);
    EXPECT(poll(polled, 3, 0), 0);
    begun = now();
    EXPECT(poll(polled, 3, LATER), 0);
    HOLDS(since(begun) >= LATER);
    begin(&raise, t);
    EXPECT(poll(polled, 3, SOON), 1);
    EXPECT(polled[1].revents, POLLIN);
    pthread_join(raise.thread, NULL);
    import(b, never, DMA_BUF_SYNC_WRITE);
    EXPECT(write(pipes[1], "", 1), 1);
    EXPECT(poll(polled, 3, SOON), 1);
    EXPECT(polled[0].revents, POLLIN);
    EXPECT(polled[1].revents, 0);
    EXPECT(ready(other, POLLOUT, 0), POLLOUT);
    int files[] = { t, b, other, pipes[0], pipes[1], reader, writer, never };
    for (int i = 0; i < 8; i++)
        close(files[i]);
}

static void epolls(void)
{
    int t = timeline(), b = buffer(PAGE), group = epoll_create1(EPOLL_CLOEXEC), writer = fence(t, 1);
    struct epoll_event asked = { .events = EPOLLIN, .data = { .u64 = 77 } }, came;
    struct raise raise;

    import(b, writer, DMA_BUF_SYNC_WRITE);
    EXPECT(epoll_ctl(group, EPOLL_CTL_ADD, b, &asked), 0);
    FAILS(epoll_ctl(group, EPOLL_CTL_ADD, b, &asked), EEXIST);
    EXPECT(epoll_wait(group, &came, 1, 0), 0);
    begin(&raise, t);
    EXPECT(epoll_wait(group, &came, 1, SOON), 1);
    EXPECT(came.data.u64, 77);
    EXPECT(came.events, EPOLLIN);
    pthread_join(raise.thread, NULL);
    EXPECT(epoll_ctl(group, EPOLL_CTL_DEL, b, NULL), 0);
    EXPECT(epoll_wait(group, &came, 1, 0), 0);
    FAILS(epoll_ctl(group, EPOLL_CTL_DEL, b, NULL), ENOENT);
    close(group);
    close(writer);
    close(t);
    close(b);
}

static void note(int signal)
{
    (void)signal;
}

static volatile int was_interrupted;

/* Sends signals until one arrives during the wait. */
static void *interrupt_later(void *given)
{
    while (!was_interrupted) {
        pause_for(LATER);
        pthread_kill(*(pthread_t *)given, SIGUSR1);
    }
    return NULL;
}

static void interrupted(void)
{
    struct sigaction action = { .sa_handler = note };
    int t = timeline(), b = buffer(PAGE), writer = fence(t, 1);
    struct pollfd polled = { .fd = b, .events = POLLIN };
    pthread_t me = pthread_self(), thread;

    sigaction(SIGUSR1, &action, NULL);
    import(b, writer, DMA_BUF_SYNC_WRITE);
    EXPECT(pthread_create(&thread, NULL, interrupt_later, &me), 0);
    FAILS(poll(&polled, 1, SOON), EINTR);
    was_interrupted = 1;
    pthread_join(thread, NULL);
    close(writer);
    close(t);
    close(b);
}

static volatile int was_accessed, goes_on;

/* Sends signals until one has ended the wait, or else a fixed number of them, before the fence signals. */
static void *interrupt_access(void *given)
{
    for (int left = 3; goes_on ? left > 0 : !was_accessed; left--) {
        pause_for(LATER);
        pthread_kill(*(pthread_t *)given, SIGUSR1);
    }
    inc(raised.timeline, 1);
    return NULL;
}

/* A signal ends a wait for an access with EINTR, unless its handler was set with SA_RESTART. */
static void interrupted_access(int flags)
{
    struct sigaction action = { .sa_handler = note, .sa_flags = flags };
    int b = buffer(PAGE), writer;
    pthread_t me = pthread_self(), thread;

    raised.timeline = timeline();
    writer = fence(raised.timeline, 1);
    was_accessed = 0;
    goes_on = (flags & SA_RESTART) != 0;
    sigaction(SIGUSR1, &action, NULL);
    import(b, writer, DMA_BUF_SYNC_WRITE);
    EXPECT(pthread_create(&thread, NULL, interrupt_access, &me), 0);
    if (goes_on)
        EXPECT(access_buffer(b, DMA_BUF_SYNC_START | DMA_BUF_SYNC_READ), 0);
    else
        FAILS(access_buffer(b, DMA_BUF_SYNC_START | DMA_BUF_SYNC_READ), EINTR);
    EXPECT(is_signalled(writer), goes_on);
    was_accessed = 1;
    pthread_join(thread, NULL);
    int files[] = { writer, b, raised.timeline };
    for (int i = 0; i < 3; i++)
        close(files[i]);
}

int main(int argc, char **argv)
{
    int before = lowest();

    (void)argv;
    give_up_after(30);
    allocation();
    memory();
    wrong_maps();
    if (argc == 1)
        without_numbers();
    interrupted_access(0);
    interrupted_access(SA_RESTART);
    wrong_calls();
    names();
    usages();
    readers_of_written();
    exports();
    waits();
    epolls();
    interrupted();
    EXPECT(lowest(), before);
    return report("buffers");
}
