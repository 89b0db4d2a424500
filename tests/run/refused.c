/* System calls that a kernel may refuse to a program or to its service: copies from the caller's memory and
 * close_range, which a container's filter or an old kernel refuses, and memory for requests. Each has another way. */
#include "service.h"
#include <linux/filter.h>
#include <linux/seccomp.h>
#include <stddef.h>
#include <sys/syscall.h>

int close_range(unsigned first, unsigned last, int flags);

enum { PAGE = 4096, MANY = 30 };

/* Makes the kernel refuse a system call to this process from now on. */
static void refuse(unsigned call, unsigned error)
{
    struct sock_filter steps[] = {
        BPF_STMT(BPF_LD | BPF_W | BPF_ABS, offsetof(struct seccomp_data, nr)),
        BPF_JUMP(BPF_JMP | BPF_JEQ | BPF_K, call, 0, 1),
        BPF_STMT(BPF_RET | BPF_K, SECCOMP_RET_ERRNO | error),
        BPF_STMT(BPF_RET | BPF_K, SECCOMP_RET_ALLOW),
    };
    struct sock_fprog filter = { sizeof steps / sizeof *steps, steps };

    EXPECT(prctl(PR_SET_NO_NEW_PRIVS, 1, 0, 0, 0), 0);
    EXPECT(prctl(PR_SET_SECCOMP, SECCOMP_MODE_FILTER, &filter), 0);
}

/* Runs a function in a child, which has descriptors, limits and filters of its own. */
static void apart(void (*try)(void))
{
    pid_t child;

    fflush(stdout);
    child = fork();
    if (child == 0) {
        failures = 0;
        try();
        fflush(stdout);
        _exit(failures != 0);
    }
    EXPECT(end_of(child), 0);
}

/* Arguments that aren't on the caller's stack. */
static struct {
    struct sw_sync_create_fence_data create;
    struct sync_merge_data merge;
    struct report report;
    struct dma_heap_allocation_data allocation;
    struct dma_buf_sync access;
    struct dma_buf_export_sync_file export;
    struct dma_buf_import_sync_file import;
    __u32 n;
    char name[NAME], link[NAME];
} far;

static int merged(int f, int g)
{
    strcpy(far.merge.name, "far");
    far.merge.fd2 = g;
    EXPECT(ioctl(f, SYNC_IOC_MERGE, &far.merge), 0);
    return far.merge.fence;
}

static void expect_row(int file, int status)
{
    far.report.file.num_fences = ROWS;
    far.report.file.sync_fence_info = (__u64)(uintptr_t)far.report.rows;
    EXPECT(ioctl(file, SYNC_IOC_FILE_INFO, &far.report.file), 0);
    EXPECT(far.report.file.num_fences, 1);
    EXPECT(far.report.rows[0].status, status);
    EXPECT(strcmp(far.report.file.name, "far"), 0);
}

static void copies_of_files(void)
{
    int t = timeline(), f;

    far.create.value = far.n = 1;
    EXPECT(ioctl(t, SW_SYNC_IOC_CREATE_FENCE, &far.create), 0);
    f = merged(far.create.fence, far.create.fence);
    expect_row(f, 0);
    EXPECT(ioctl(t, SW_SYNC_IOC_INC, &far.n), 0);
    expect_row(f, 1);
    HOLDS(readlink("/proc/self/fd/0", far.link, sizeof far.link) > 0);
}

static void copies_of_buffers(void)
{
    int t = timeline(), heap = open(HEAP, O_RDWR), b;

    far.allocation.len = PAGE;
    EXPECT(ioctl(heap, DMA_HEAP_IOCTL_ALLOC, &far.allocation), 0);
    b = (int)far.allocation.fd;
    strcpy(far.name, "a far name");
    EXPECT(ioctl(b, DMA_BUF_SET_NAME, far.name), 0);
    far.import.fd = fence(t, 1);
    far.import.flags = far.export.flags = DMA_BUF_SYNC_WRITE;
    EXPECT(ioctl(b, DMA_BUF_IOCTL_IMPORT_SYNC_FILE, &far.import), 0);
    EXPECT(ioctl(b, DMA_BUF_IOCTL_EXPORT_SYNC_FILE, &far.export), 0);
    EXPECT(is_signalled(far.export.fd), 0);
    EXPECT(inc(t, 1), 0);
    far.access.flags = DMA_BUF_SYNC_START | DMA_BUF_SYNC_RW;
    EXPECT(ioctl(b, DMA_BUF_IOCTL_SYNC, &far.access), 0);
    EXPECT(is_signalled(far.export.fd), 1);
}

static void copies(void)
{
    refuse(SYS_process_vm_readv, EPERM);
    refuse(SYS_process_vm_writev, EPERM);
    copies_of_files();
    copies_of_buffers();
}

/* The service's own descriptors stay open either way. */
static void ranges(void)
{
    int t = timeline(), f = fence(t, 1), others[MANY];

    for (int i = 0; i < MANY; i++)
        others[i] = fence(t, 1);
    refuse(SYS_close_range, ENOSYS);
    FAILS(close_range((unsigned)others[0], ~0u, 4), ENOSYS);
    EXPECT(fcntl(others[0], F_GETFD), FD_CLOEXEC);
    EXPECT(close_range((unsigned)others[0], ~0u, 0), 0);
    for (int i = 0; i < MANY; i++)
        FAILS(fcntl(others[i], F_GETFD), EBADF);
    EXPECT(status(f), 0);
    EXPECT(close_range((unsigned)t, (unsigned)t, 0), 0);
    EXPECT(status(f), -ENOENT);
    HOLDS(timeline() >= 0);
}

static void plays(void)
{
    int t = timeline(), f = fence(t, 1), both = merge("both", f, f);

    EXPECT(status(both), 0);
    EXPECT(inc(t, 1), 0);
    EXPECT(status(both), 1);
    EXPECT(is_signalled(f), 1);
}

/* Without shared memory, a process asks by its socket. */
static void channels(void)
{
    pid_t found[MOST];
    struct rlimit before, none;
    int count = service(getppid(), getpid(), found), i = 1;

    while (i < count && !is_named(found[i], "bimphlai-run"))
        i++;
    HOLDS(i < count && prlimit(found[i], RLIMIT_FSIZE, NULL, &before) == 0);
    none = (struct rlimit){ 0, before.rlim_max };
    EXPECT(prlimit(found[i], RLIMIT_FSIZE, &none, NULL), 0);
    apart(plays);
    EXPECT(prlimit(found[i], RLIMIT_FSIZE, &before, NULL), 0);
    apart(plays);
}

int main(void)
{
    const char *service = getenv("BIMPHLAI_RUN");

    give_up_after(30);
    apart(plays);
    apart(copies);
    apart(ranges);
    if (service && strcmp(service, "local") != 0)
        channels();
    return report("refused");
}
