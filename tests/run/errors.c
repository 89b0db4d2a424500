/* The errno with which each call of a timeline and of a sync file fails. A failed call leaves nothing behind. */
#include "kernel.h"
#include <sys/select.h>
#include <sys/uio.h>

enum { PAGE = 4096, MANY = 20 };

static int lines[MANY];

/* Returns the end of a page with this protection; the page after it can't be accessed. */
static char *edge(int protection)
{
    char *pages = mmap(NULL, 2 * PAGE, PROT_READ | PROT_WRITE, MAP_PRIVATE | MAP_ANONYMOUS, -1, 0);

    if (pages == MAP_FAILED || mprotect(pages + PAGE, PAGE, PROT_NONE) || mprotect(pages, PAGE, protection))
        abort();
    return pages + PAGE;
}

/* Makes a read-only copy. */
static void *fixed(const void *from, size_t bytes)
{
    char *end = edge(PROT_READ | PROT_WRITE);

    memcpy(end - PAGE, from, bytes);
    if (mprotect(end - PAGE, PAGE, PROT_READ))
        abort();
    return end - PAGE;
}

static void wrong_kinds(void)
{
    int t = timeline(), f = fence(t, 1), pipes[2], null = open("/dev/null", O_RDWR);
    struct sw_sync_create_fence_data create = { .value = 1 };
    struct sync_merge_data join = { .fd2 = f };
    struct sync_file_info info = { .num_fences = 0 };
    __u32 one = 1;

    EXPECT(pipe(pipes), 0);
    int others[] = { f, pipes[0], pipes[1], null };
    for (int i = 0; i < 4; i++) {
        FAILS(ioctl(others[i], SW_SYNC_IOC_INC, &one), ENOTTY);
        FAILS(ioctl(others[i], SW_SYNC_IOC_CREATE_FENCE, &create), ENOTTY);
    }
    others[0] = t;
    for (int i = 0; i < 4; i++) {
        FAILS(ioctl(others[i], SYNC_IOC_MERGE, &join), ENOTTY);
        FAILS(ioctl(others[i], SYNC_IOC_FILE_INFO, &info), ENOTTY);
    }
    FAILS(ioctl(-1, SW_SYNC_IOC_INC, &one), EBADF);
    FAILS(ioctl(-1, SW_SYNC_IOC_CREATE_FENCE, &create), EBADF);
    FAILS(ioctl(-1, SYNC_IOC_MERGE, &join), EBADF);
    FAILS(ioctl(-1, SYNC_IOC_FILE_INFO, &info), EBADF);
    FAILS(ioctl(t, _IO('W', 9), NULL), ENOTTY);
    FAILS(ioctl(f, _IO('>', 99), NULL), ENOTTY);
    EXPECT(is_signalled(f), 0);
    close(f);
    FAILS(ioctl(f, SYNC_IOC_FILE_INFO, &info), EBADF);
    close(t);
    FAILS(ioctl(t, SW_SYNC_IOC_INC, &one), EBADF);
    close(pipes[0]);
    close(pipes[1]);
    close(null);
}

static void bad_pointers_of_timelines(void)
{
    int t = timeline(), f = fence(t, 1), before = lowest();
    char *end = edge(PROT_READ | PROT_WRITE);
    struct sw_sync_create_fence_data create = { .value = 1 };

    FAILS(ioctl(t, SW_SYNC_IOC_INC, NULL), EFAULT);
    FAILS(ioctl(t, SW_SYNC_IOC_INC, end), EFAULT);
    FAILS(ioctl(t, SW_SYNC_IOC_INC, end - 2), EFAULT);
    FAILS(ioctl(t, SW_SYNC_IOC_CREATE_FENCE, NULL), EFAULT);
    FAILS(ioctl(t, SW_SYNC_IOC_CREATE_FENCE, end - 8), EFAULT);
    FAILS(ioctl(t, SW_SYNC_IOC_CREATE_FENCE, fixed(&create, sizeof create)), EFAULT);
    EXPECT(lowest(), before);
    EXPECT(is_signalled(f), 0);
    /* Memory need only have the fields that are used: it may end right after them, and begin at any address. */
    memcpy(end - sizeof create, &create, sizeof create);
    EXPECT(ioctl(t, SW_SYNC_IOC_CREATE_FENCE, end - sizeof create), 0);
    memcpy(&create, end - sizeof create, sizeof create);
    EXPECT(is_signalled(create.fence), 0);
    memcpy(end - 5, &(__u32){ 1 }, 4);
    EXPECT(ioctl(t, SW_SYNC_IOC_INC, end - 5), 0);
    EXPECT(is_signalled(f), 1);
    EXPECT(is_signalled(create.fence), 1);
    close(create.fence);
    close(f);
    close(t);
}

static void bad_pointers_of_files(void)
{
    int t = timeline(), f = fence(t, 1), before = lowest();
    char *end = edge(PROT_READ | PROT_WRITE);
    struct sync_merge_data join = { .name = "joined", .fd2 = f };
    struct sync_file_info info = { .num_fences = 1, .sync_fence_info = (__u64)(uintptr_t)(end - 8) };

    FAILS(ioctl(f, SYNC_IOC_MERGE, NULL), EFAULT);
    FAILS(ioctl(f, SYNC_IOC_MERGE, end - 8), EFAULT);
    FAILS(ioctl(f, SYNC_IOC_MERGE, fixed(&join, sizeof join)), EFAULT);
    FAILS(ioctl(f, SYNC_IOC_FILE_INFO, NULL), EFAULT);
    FAILS(ioctl(f, SYNC_IOC_FILE_INFO, end - 8), EFAULT);
    FAILS(ioctl(f, SYNC_IOC_FILE_INFO, &info), EFAULT);
    info.sync_fence_info = 0;
    FAILS(ioctl(f, SYNC_IOC_FILE_INFO, &info), EFAULT);
    info.num_fences = 0;
    FAILS(ioctl(f, SYNC_IOC_FILE_INFO, fixed(&info, sizeof info)), EFAULT);
    EXPECT(lowest(), before);
    /* Structures at odd addresses. */
    memcpy(end - sizeof join - 1, &join, sizeof join);
    EXPECT(ioctl(f, SYNC_IOC_MERGE, end - sizeof join - 1), 0);
    memcpy(&join, end - sizeof join - 1, sizeof join);
    EXPECT(size(join.fence), 1);
    memcpy(end - sizeof info - 1, &info, sizeof info);
    EXPECT(ioctl(join.fence, SYNC_IOC_FILE_INFO, end - sizeof info - 1), 0);
    memcpy(&info, end - sizeof info - 1, sizeof info);
    EXPECT(info.num_fences, 1);
    HOLDS(!strcmp(info.name, "joined"));
    close(join.fence);
    close(f);
    close(t);
}

static void bad_merges(void)
{
    int t = timeline(), f = fence(t, 1), other = fence(t, 2), before;
    struct sync_merge_data join = { .fd2 = other, .flags = 1 };

    FAILS(ioctl(f, SYNC_IOC_MERGE, &join), EINVAL);
    join.flags = 0;
    join.pad = 1;
    FAILS(ioctl(f, SYNC_IOC_MERGE, &join), EINVAL);
    join.fd2 = -1;
    FAILS(ioctl(f, SYNC_IOC_MERGE, &join), EINVAL);
    join.pad = 0;
    FAILS(ioctl(f, SYNC_IOC_MERGE, &join), ENOENT);
    join.fd2 = t;
    FAILS(ioctl(f, SYNC_IOC_MERGE, &join), ENOENT);
    join.fd2 = 0;
    FAILS(ioctl(f, SYNC_IOC_MERGE, &join), ENOENT);
    close(other);
    before = lowest();
    join.fd2 = other;
    FAILS(ioctl(f, SYNC_IOC_MERGE, &join), ENOENT);
    EXPECT(lowest(), before);
    close(f);
    close(t);
}

static void bad_reports(void)
{
    int t = timeline(), u = timeline(), a = fence(t, 1), b = fence(u, 1), f = merge("pair", a, b);
    struct sync_fence_info rows[3];
    struct sync_file_info info = { .num_fences = 1, .sync_fence_info = (__u64)(uintptr_t)rows };

    memset(rows, 7, sizeof rows);
    FAILS(ioctl(f, SYNC_IOC_FILE_INFO, &info), EINVAL);
    EXPECT(info.num_fences, 1);
    info.num_fences = 0;
    info.flags = 1;
    FAILS(ioctl(f, SYNC_IOC_FILE_INFO, &info), EINVAL);
    info.flags = 0;
    info.pad = 1;
    FAILS(ioctl(f, SYNC_IOC_FILE_INFO, &info), EINVAL);
    info.pad = 0;
    /* Without rows the call counts them; with room for too many it leaves the rest unchanged. */
    EXPECT(ioctl(f, SYNC_IOC_FILE_INFO, &info), 0);
    EXPECT(info.num_fences, 2);
    EXPECT(rows[0].obj_name[0], 7);
    info.num_fences = 3;
    EXPECT(ioctl(f, SYNC_IOC_FILE_INFO, &info), 0);
    EXPECT(info.num_fences, 2);
    EXPECT(rows[1].status, 0);
    EXPECT(rows[2].obj_name[0], 7);
    close(f);
    close(a);
    close(b);
    close(t);
    close(u);
}

/* A sync file or a timeline can be neither read nor written, and a try changes nothing. */
static void reads(void)
{
    int t = timeline(), f = fence(t, 1), pipes[2], count;
    char bytes[8] = { 0 };
    struct iovec room = { bytes, sizeof bytes };

    EXPECT(pipe(pipes), 0);
    for (int i = 0; i < 2; i++) {
        FAILS(read(f, bytes, sizeof bytes), EINVAL);
        FAILS(readv(f, &room, 1), EINVAL);
        FAILS(write(f, bytes, 1), EBADF);
        FAILS(read(t, bytes, sizeof bytes), EINVAL);
        FAILS(write(t, bytes, 1), EINVAL);
        FAILS(writev(t, &room, 1), EINVAL);
        FAILS(splice(f, NULL, pipes[1], NULL, 1, SPLICE_F_NONBLOCK), EINVAL);
        FAILS(tee(f, pipes[1], 1, SPLICE_F_NONBLOCK), EINVAL);
        FAILS(ioctl(f, FIONREAD, &count), ENOTTY);
        FAILS(lseek(f, 0, SEEK_SET), ESPIPE);
        EXPECT(is_signalled(f), i);
        inc(t, 1);
    }
    EXPECT(is_signalled(f), 1);
    EXPECT(ioctl(t, FIONREAD, &count), 0);
    EXPECT(count, 0);
    close(pipes[0]);
    close(pipes[1]);
    close(f);
    close(t);
}

/* Opens a descriptor's own path. */
static int open_again(const char *folder, int fd)
{
    char path[64];

    snprintf(path, sizeof path, "%s/%d", folder, fd);
    return open(path, O_RDWR | O_CLOEXEC);
}

/* Opening a timeline's path makes a new timeline, and a file's path can't be opened. */
static void opened_again(void)
{
    static const char *const folders[] = { "/proc/self/fd", "/proc/thread-self/fd", "/dev/fd" };
    int t = timeline(), f = fence(t, 1);

    for (int i = 0; i < 3; i++) {
        int before = lowest(), again = open_again(folders[i], t);
        HOLDS(again >= 0);
        EXPECT(fcntl(again, F_GETFD), FD_CLOEXEC);
        EXPECT(inc(again, 1), 0);
        EXPECT(close(again), 0);
        FAILS(open_again(folders[i], f), ENXIO);
        EXPECT(status(f), 0);
        EXPECT(lowest(), before);
    }
    inc(t, 1);
    EXPECT(is_signalled(f), 1);
    close(f);
    close(t);
}

ssize_t __read_chk(int file, void *bytes, size_t length, size_t room);

/* Makes the failing calls through the entry points of programs built with _FORTIFY_SOURCE. */
static void fortified(void)
{
    int t = timeline(), f = fence(t, 0);
    char bytes[8];

    FAILS(__read_chk(f, bytes, 1, sizeof bytes), EINVAL);
    FAILS(__read_chk(t, bytes, 1, sizeof bytes), EINVAL);
    EXPECT(is_signalled(f), 1);
    close(f);
    close(t);
}

/* The kernel's own calls refuse bad pointers too. */
static void bad_pointers_of_waits(void)
{
    int t = timeline(), f = fence(t, 0);
    char *end = edge(PROT_READ | PROT_WRITE);

    /* The C library itself reads the limits. */
    FAILS(select(f + 1, (fd_set *)end, NULL, NULL, NULL), EFAULT);
    FAILS(pselect(f + 1, (fd_set *)end, NULL, NULL, NULL, NULL), EFAULT);
    FAILS(poll((struct pollfd *)end, 1, -1), EFAULT);
    close(f);
    close(t);
}

static void flags(void)
{
    int t = timeline(), hidden = open(SW_SYNC, O_RDWR | O_CLOEXEC), f = fence(t, 1), joined = merge("", f, f);

    EXPECT(fcntl(t, F_GETFD), 0);
    EXPECT(fcntl(hidden, F_GETFD), FD_CLOEXEC);
    EXPECT(fcntl(f, F_GETFD), FD_CLOEXEC);
    EXPECT(fcntl(joined, F_GETFD), FD_CLOEXEC);
    EXPECT(ioctl(f, IOC_SET_DEADLINE, &(struct deadline){ .deadline_ns = now() }), 0);
    FAILS(ioctl(f, IOC_SET_DEADLINE, &(struct deadline){ .deadline_ns = now(), .pad = 1 }), EINVAL);
    FAILS(ioctl(f, IOC_SET_DEADLINE, NULL), EFAULT);
    FAILS(ioctl(t, IOC_SET_DEADLINE, &(struct deadline){ .deadline_ns = now() }), ENOTTY);
    EXPECT(is_signalled(f), 0);
    close(joined);
    close(f);
    close(hidden);
    close(t);
}

/* Makes a file with so many fences that their rows don't fit into an answer. */
static int of_many(int count)
{
    int all = -1;

    for (int i = 0; i < count; i++) {
        int t = timeline(), one = fence(t, 1), more = merge("all", i == 0 ? one : all, one);
        close(one);
        close(all);
        all = more;
        lines[i] = t;
    }
    return all;
}

/* At its limit of descriptors a process gets none; one below it, the process gets exactly one. */
static void too_many(void)
{
    int t = timeline(), f = fence(t, 1), many = of_many(MANY), last = dup(0);
    struct rlimit before, full;

    getrlimit(RLIMIT_NOFILE, &before);
    full = before;
    full.rlim_cur = (rlim_t)last + 1;
    EXPECT(setrlimit(RLIMIT_NOFILE, &full), 0);
    FAILS(timeline(), EMFILE);
    FAILS(fence(t, 1), EMFILE);
    FAILS(merge("", f, f), EMFILE);
    FAILS(open(HEAP, O_RDWR), EMFILE);
    /* EMFILE comes before the argument is read. */
    FAILS(ioctl(t, SW_SYNC_IOC_CREATE_FENCE, NULL), EMFILE);
    FAILS(ioctl(f, SYNC_IOC_MERGE, NULL), EMFILE);
    FAILS(merge("", f, -1), EMFILE);
    FAILS(ioctl(f, SYNC_IOC_MERGE, &(struct sync_merge_data){ .fd2 = f, .pad = 1 }), EMFILE);
    EXPECT(size(many), MANY);
    EXPECT(inc(t, 0), 0);
    EXPECT(status(f), 0);
    close(last);
    EXPECT(fence(t, 1), last);
    close(last);
    EXPECT(merge("", f, f), last);
    close(last);
    EXPECT(timeline(), last);
    FAILS(timeline(), EMFILE);
    close(last);
    EXPECT(setrlimit(RLIMIT_NOFILE, &before), 0);
    EXPECT(fence(t, 1), last);
    close(last);
    for (int i = 0; i < MANY; i++)
        close(lines[i]);
    close(many);
    close(f);
    close(t);
}

int main(int argc, char **argv)
{
    (void)argv;
    give_up_after(30);
    wrong_kinds();
    bad_pointers_of_timelines();
    bad_pointers_of_files();
    bad_merges();
    bad_reports();
    reads();
    opened_again();
    fortified();
    flags();
    if (argc == 1) {
        bad_pointers_of_waits();
        too_many();
    }
    return report("errors");
}
