/* usage: direct [again]
 *
 * A program that makes system calls without the C library, which --direct serves: by syscall(2), in threads, children
 * and handlers, with signals blocked, and after it has executed itself again. */
#include "kernel.h"
#include <pthread.h>
#include <signal.h>
#include <spawn.h>
#include <sys/syscall.h>

static int open_directly(const char *path, int flags)
{
    return (int)syscall(SYS_openat, AT_FDCWD, path, flags, 0600);
}

static int call(int file, unsigned long number, void *arg)
{
    return (int)syscall(SYS_ioctl, file, number, arg);
}

static int fence_of(int timeline, __u32 point)
{
    struct sw_sync_create_fence_data data = { .value = point };

    return call(timeline, SW_SYNC_IOC_CREATE_FENCE, &data) < 0 ? -1 : data.fence;
}

static int advance(int timeline, __u32 n)
{
    return call(timeline, SW_SYNC_IOC_INC, &n);
}

static int status_of(int file)
{
    struct sync_file_info info = { .num_fences = 0 };

    return call(file, SYNC_IOC_FILE_INFO, &info) < 0 ? 99 : info.status;
}

static void files(void)
{
    int t = open_directly(SW_SYNC, O_RDWR | O_CLOEXEC), f = fence_of(t, 1), g = fence_of(t, 2);
    struct sync_merge_data both = { .name = "both", .fd2 = g };

    HOLDS(t >= 0 && f >= 0);
    EXPECT(call(f, SYNC_IOC_MERGE, &both), 0);
    EXPECT(is_signalled(f), 0);
    EXPECT(advance(t, 1), 0);
    EXPECT(is_signalled(f), 1);
    EXPECT(status_of(f), 1);
    EXPECT(status_of(both.fence), 0);
    EXPECT(syscall(SYS_close, t), 0);
    EXPECT(ready(both.fence, POLLIN, SOON), POLLIN);
    EXPECT(status(both.fence), -ENOENT);
    int all[] = { f, g, both.fence };
    for (int i = 0; i < 3; i++)
        close(all[i]);
}

static void buffers(void)
{
    struct dma_heap_allocation_data data = { .len = 4096, .fd_flags = O_RDWR | O_CLOEXEC };
    int heap = open_directly(HEAP, O_RDWR | O_CLOEXEC), t = timeline(), f = fence(t, 1);

    EXPECT(call(heap, DMA_HEAP_IOCTL_ALLOC, &data), 0);
    struct dma_buf_import_sync_file import = { .flags = DMA_BUF_SYNC_WRITE, .fd = f };
    struct dma_buf_export_sync_file export = { .flags = DMA_BUF_SYNC_READ, .fd = -1 };
    EXPECT(call((int)data.fd, DMA_BUF_IOCTL_IMPORT_SYNC_FILE, &import), 0);
    EXPECT(ready((int)data.fd, POLLIN, 0), 0);
    EXPECT(call((int)data.fd, DMA_BUF_IOCTL_EXPORT_SYNC_FILE, &export), 0);
    EXPECT(is_signalled(export.fd), 0);
    EXPECT(advance(t, 1), 0);
    EXPECT(is_signalled(export.fd), 1);
    int all[] = { heap, t, f, (int)data.fd, export.fd };
    for (int i = 0; i < 5; i++)
        close(all[i]);
}

/* A call on other descriptors goes to the kernel, and fails with the kernel's errors; errno is set only by the call
 * itself. */
static void others(void)
{
    int pipes[2], nowhere = open_directly("/dev/null", O_RDWR | O_CLOEXEC), t = timeline(), before = lowest();
    struct sync_file_info info = { .num_fences = 0 };

    EXPECT(pipe(pipes), 0);
    HOLDS(nowhere >= 0);
    EXPECT(write(nowhere, "", 1), 1);
    FAILS(open_directly("/no/such/file", O_RDWR), ENOENT);
    FAILS(open_directly(NULL, O_RDWR), EFAULT);
    FAILS(call(pipes[0], SYNC_IOC_FILE_INFO, &info), ENOTTY);
    FAILS(call(t, SYNC_IOC_FILE_INFO, &info), ENOTTY);
    FAILS(call(-1, SYNC_IOC_FILE_INFO, &info), EBADF);
    FAILS(call(t, SW_SYNC_IOC_INC, NULL), EFAULT);
    errno = 77;
    EXPECT(advance(t, 0), 0);
    EXPECT(errno, 77);
    /* Through the C library. */
    FAILS(ioctl(pipes[0], SYNC_IOC_FILE_INFO, &info), ENOTTY);
    int again = open("/dev/null", O_RDWR | O_CLOEXEC);
    HOLDS(again >= 0);
    int all[] = { again, pipes[0], pipes[1] };
    for (int i = 0; i < 3; i++)
        close(all[i]);
    EXPECT(lowest(), before);
    close(nowhere);
    close(t);
}

static void handle(int signal)
{
    (void)signal;
    files();
}

/* A program can neither block nor handle the signal that catches its calls. */
static void with_signals(void)
{
    struct sigaction action = { .sa_handler = handle };
    sigset_t all, before;

    sigfillset(&all);
    sigfillset(&action.sa_mask);
    EXPECT(sigaction(SIGUSR1, &action, NULL), 0);
    EXPECT(raise(SIGUSR1), 0);
    EXPECT(pthread_sigmask(SIG_SETMASK, &all, &before), 0);
    files();
    EXPECT(sigprocmask(SIG_BLOCK, &all, NULL), 0);
    files();
    EXPECT(pthread_sigmask(SIG_SETMASK, &before, NULL), 0);
    EXPECT(sigaction(SIGSYS, &(struct sigaction){ .sa_handler = SIG_DFL }, NULL), 0);
    signal(SIGSYS, SIG_IGN);
    files();
}

static void *in_thread(void *given)
{
    for (int i = 0; i < 50; i++)
        files();
    return given;
}

static void in_threads(void)
{
    pthread_t threads[4];

    for (int i = 0; i < 4; i++)
        EXPECT(pthread_create(&threads[i], NULL, in_thread, NULL), 0);
    for (int i = 0; i < 4; i++)
        pthread_join(threads[i], NULL);
}

/* Tries a child, and the same program executed again, which has the filter already. */
static void in_children(void)
{
    fflush(stdout);
    pid_t child = fork();

    if (child == 0) {
        files();
        _exit(failures != 0);
    }
    EXPECT(end_of(child), 0);
    child = fork();
    if (child == 0) {
        execl("/proc/self/exe", "direct", "again", (char *)NULL);
        _exit(2);
    }
    EXPECT(end_of(child), 0);
}

/* The C library opens a file for a spawned program where no handler can run. */
static void spawns(void)
{
    posix_spawn_file_actions_t actions;
    char *words[] = { "true", NULL };
    pid_t child;

    EXPECT(posix_spawn_file_actions_init(&actions), 0);
    EXPECT(posix_spawn_file_actions_addopen(&actions, STDIN_FILENO, "/dev/null", O_RDWR, 0), 0);
    EXPECT(posix_spawnp(&child, "true", &actions, NULL, words, environ), 0);
    EXPECT(end_of(child), 0);
    posix_spawn_file_actions_destroy(&actions);
}

int main(int argc, char **argv)
{
    int before = lowest();

    give_up_after(60);
    files();
    buffers();
    others();
    with_signals();
    EXPECT(lowest(), before);
    if (argc > 1 && strcmp(argv[1], "again") == 0)
        return failures != 0;
    in_threads();
    in_children();
    spawns();
    EXPECT(lowest(), before);
    return report("direct");
}
