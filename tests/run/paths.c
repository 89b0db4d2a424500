/* The paths of fence devices: each call that takes one of them, and similar paths. */
#include "kernel.h"
#include <dlfcn.h>
#include <sys/syscall.h>
#include <sys/sysmacros.h>

#ifdef __x86_64__
#define STAT_VERSION 1
#else
#define STAT_VERSION 0
#endif

static const char *const paths[] = { SW_SYNC, DEV_SW_SYNC, HEAP, SYNC_INFO };

static void is_there(const char *path)
{
    struct stat status;
    struct statx more;

    EXPECT(stat(path, &status), 0);
    HOLDS(!S_ISDIR(status.st_mode));
    EXPECT(lstat(path, &status), 0);
    EXPECT(fstatat(AT_FDCWD, path, &status, 0), 0);
    HOLDS(status.st_mode & S_IRUSR);
    EXPECT(statx(AT_FDCWD, path, 0, STATX_BASIC_STATS, &more), 0);
    HOLDS(!S_ISDIR(more.stx_mode));
    EXPECT(access(path, F_OK), 0);
    EXPECT(access(path, R_OK), 0);
    EXPECT(faccessat(AT_FDCWD, path, F_OK, 0), 0);
    EXPECT(faccessat(AT_FDCWD, path, R_OK, AT_EACCESS), 0);
    FAILS(access(path, X_OK), EACCES);
    FAILS(faccessat(AT_FDCWD, path, R_OK | X_OK, 0), EACCES);
    if (strcmp(path, SYNC_INFO))
        EXPECT(access(path, R_OK | W_OK), 0);
    else
        FAILS(access(path, W_OK), EACCES);
}

/* Tries the entry points of programs built with an older C library. */
static void is_there_by_older_calls(const char *path)
{
    int version = STAT_VERSION;
    int (*calls[2])(int, const char *, struct stat *);
    int (*of_folder)(int, int, const char *, struct stat *, int);
    void *found[] = { dlsym(RTLD_DEFAULT, "__xstat"), dlsym(RTLD_DEFAULT, "__lxstat"), dlsym(RTLD_DEFAULT, "__fxstatat") };
    struct stat status;

    if (!found[0] || !found[1] || !found[2])
        return;
    memcpy(calls, found, sizeof calls);
    memcpy(&of_folder, &found[2], sizeof of_folder);
    for (int i = 0; i < 2; i++) {
        memset(&status, 0, sizeof status);
        EXPECT(calls[i](version, path, &status), 0);
        HOLDS(status.st_mode & S_IRUSR);
        EXPECT(calls[i](version, "/no/such", &status), -1);
    }
    memset(&status, 0, sizeof status);
    EXPECT(of_folder(version, AT_FDCWD, path, &status, 0), 0);
    HOLDS(status.st_mode & S_IRUSR);
}

static void opens(const char *path, int flags)
{
    int ways[] = { open(path, flags), open(path, flags | O_CLOEXEC), openat(AT_FDCWD, path, flags), openat(0, path, flags) };

    for (int i = 0; i < 4; i++) {
        HOLDS(ways[i] >= 0);
        close(ways[i]);
    }
}

/* Flags with which a path can't be opened, and descriptors that only name it. */
static void opens_otherwise(const char *path)
{
    struct stat status;
    int before = lowest(), fd;
    __u32 one = 1;

    FAILS(open(path, O_RDONLY | O_DIRECTORY), ENOTDIR);
    FAILS(open(path, O_RDWR | O_CREAT | O_EXCL, 0600), EEXIST);
    FAILS(open(path, O_RDONLY | O_PATH | O_DIRECTORY), ENOTDIR);
    fd = open(path, O_PATH | O_CLOEXEC);
    HOLDS(fd >= 0);
    EXPECT(fcntl(fd, F_GETFD), FD_CLOEXEC);
    FAILS(ioctl(fd, SW_SYNC_IOC_INC, &one), EBADF);
    FAILS(read(fd, &one, 1), EBADF);
    close(fd);
    fd = creat(path, 0600);
    EXPECT(fd >= 0, strcmp(path, SYNC_INFO) != 0);
    if (fd >= 0)
        EXPECT(fstat(fd, &status), 0);
    close(fd);
    EXPECT(lowest(), before);
}

/* The text of sync/info can only be read. */
static void read_only(void)
{
    int fd = open(SYNC_INFO, O_RDONLY);
    char bytes[8] = { 0 };

    FAILS(write(fd, bytes, 1), EBADF);
    FAILS(open(SYNC_INFO, O_RDWR), EACCES);
    FAILS(open(SYNC_INFO, O_WRONLY), EACCES);
    EXPECT(read(fd, bytes, 5), 5);
    HOLDS(!strcmp(bytes, "objs:"));
    close(fd);
}

/* A heap is a device that can't be read, written or mapped. */
static void devices(const char *path)
{
    int fd = open(path, O_RDWR);
    struct stat status;
    char bytes[8] = { 0 };

    EXPECT(fstat(fd, &status), 0);
    HOLDS(S_ISCHR(status.st_mode));
    FAILS(write(fd, bytes, 1), EINVAL);
    FAILS(read(fd, bytes, 1), EINVAL);
    HOLDS(mmap(NULL, 4096, PROT_READ, MAP_SHARED, fd, 0) == MAP_FAILED && errno == ENODEV);
    HOLDS(mmap(NULL, 4096, PROT_READ | PROT_WRITE, MAP_PRIVATE, fd, 0) == MAP_FAILED && errno == ENODEV);
    close(fd);
}

/* Expects a descriptor's link text by each path that has it. */
static void links_to(int fd, const char *wanted)
{
    static const char *const folders[] = { "/proc/self/fd", "/proc/thread-self/fd", "/dev/fd" };
    char path[64], link[64], shorter[4];

    for (int i = 0; i < 4; i++) {
        if (i < 3)
            snprintf(path, sizeof path, "%s/%d", folders[i], fd);
        else
            snprintf(path, sizeof path, "/proc/%d/fd/%d", (int)getpid(), fd);
        ssize_t length = i % 2 ? readlinkat(AT_FDCWD, path, link, sizeof link) : readlink(path, link, sizeof link);
        EXPECT(length, strlen(wanted));
        HOLDS(length > 0 && !memcmp(link, wanted, strlen(wanted)));
        EXPECT(readlink(path, shorter, sizeof shorter), sizeof shorter);
        HOLDS(!memcmp(shorter, wanted, sizeof shorter));
    }
}

static void links(void)
{
    int t = timeline(), f = fence(t, 1), b = buffer(1), heap = open(HEAP, O_RDWR), pipes[2];
    char link[64] = { 0 }, path[64];

    links_to(t, SW_SYNC);
    links_to(f, "anon_inode:sync_file");
    links_to(b, "/dmabuf:");
    EXPECT(ioctl(b, DMA_BUF_SET_NAME_B, "frame"), 0);
    links_to(b, "/dmabuf:frame");
    links_to(heap, HEAP);
    EXPECT(pipe(pipes), 0);
    snprintf(path, sizeof path, "/proc/self/fd/%d", pipes[0]);
    HOLDS(readlink(path, link, sizeof link - 1) > 0);
    HOLDS(!strncmp(link, "pipe:[", 6));
    int files[] = { t, f, b, heap, pipes[0], pipes[1] };
    for (int i = 0; i < 6; i++)
        close(files[i]);
}

/* A file that has our mode but isn't ours is the program's own. */
static void alike(void)
{
    static const mode_t modes[] = { 01600, 01400, 01200 };
    char folder[] = "/tmp/run-paths-XXXXXX", path[64], byte = 0;

    HOLDS(mkdtemp(folder));
    snprintf(path, sizeof path, "%s/alike", folder);
    for (int i = 0; i < 3; i++) {
        int fd = open(path, O_RDWR | O_CREAT, 0600);
        EXPECT(fchmod(fd, modes[i]), 0);
        EXPECT(write(fd, "a", 1), 1);
        EXPECT(lseek(fd, 0, SEEK_SET), 0);
        EXPECT(read(fd, &byte, 1), 1);
        close(fd);
        unlink(path);
        EXPECT(mkfifo(path, 0600), 0);
        fd = open(path, O_RDWR | O_NONBLOCK);
        EXPECT(fchmod(fd, modes[i]), 0);
        EXPECT(write(fd, "a", 1), 1);
        EXPECT(read(fd, &byte, 1), 1);
        close(fd);
        unlink(path);
    }
    rmdir(folder);
}

/* Since Linux 6.11, a path of NULL means the descriptor itself. */
static void descriptors(void)
{
    /* The C library declares the path as non-null. */
    int (*volatile statx_of)(int, const char *, int, unsigned, struct statx *) = statx;
    int (*volatile stat_of)(int, const char *, struct stat *, int) = fstatat;
    int (*volatile access_of)(int, const char *, int, int) = faccessat;
    int fd = open("/dev/null", O_RDWR), t = timeline();
    struct statx more;
    struct stat status;
    int result = statx_of(fd, NULL, AT_EMPTY_PATH, STATX_BASIC_STATS, &more);

    HOLDS(result == 0 ? S_ISCHR(more.stx_mode) : errno == EFAULT);
    EXPECT(stat_of(fd, NULL, &status, AT_EMPTY_PATH), result);
    EXPECT(statx(t, "", AT_EMPTY_PATH, STATX_BASIC_STATS, &more), 0);
    FAILS(statx_of(fd, NULL, 0, STATX_BASIC_STATS, &more), EFAULT);
    FAILS(access_of(fd, NULL, F_OK, 0), EFAULT);
    close(fd);
    close(t);
}

static void no_paths(void)
{
    const char *nowhere = (const char *)-4096l;
    struct stat status;

#ifndef __SANITIZE_ADDRESS__
    /* The sanitizer reads the path itself. */
    char path[64];
    snprintf(path, sizeof path, "/proc/self/fd/%d", fence(timeline(), 1));
    FAILS(readlink(nowhere, path, sizeof path), EFAULT);
    FAILS(readlink(path, (char *)(uintptr_t)nowhere, sizeof path), EFAULT);
#endif

    FAILS(open(nowhere, O_RDWR), EFAULT);
    FAILS(stat(nowhere, &status), EFAULT);
    FAILS(access(nowhere, F_OK), EFAULT);
}

/* A path with the same beginning or end is another path; other files behave as usual. */
static void others(void)
{
    struct stat status;

    FAILS(open(SW_SYNC "s", O_RDWR), ENOENT);
    FAILS(stat(SW_SYNC "s", &status), ENOENT);
    EXPECT(access(SW_SYNC "/more", F_OK), -1);
    FAILS(open("/no/such" SW_SYNC, O_RDWR), ENOENT);
    FAILS(open("", O_RDWR), ENOENT);
    EXPECT(stat("/", &status), 0);
    HOLDS(S_ISDIR(status.st_mode));
    int f = open("/dev/null", O_RDWR);
    HOLDS(f >= 0);
    EXPECT(fstat(f, &status), 0);
    HOLDS(S_ISCHR(status.st_mode) && major(status.st_rdev) == 1);
    close(f);
    char made[] = "/tmp/run-paths-XXXXXX";
    f = mkstemp(made);
    HOLDS(f >= 0);
    close(f);
    unlink(made);
    f = open(made, O_CREAT | O_EXCL | O_WRONLY, 0640);
    HOLDS(f >= 0);
    EXPECT(fstat(f, &status), 0);
    EXPECT(status.st_mode & 0777 & ~0640, 0);
    HOLDS(status.st_mode & 0400);
    close(f);
    unlink(made);
}

int main(int argc, char **argv)
{
    (void)argv;
    give_up_after(20);
    for (int i = 0; i < 4; i++) {
        is_there(paths[i]);
        opens(paths[i], i < 3 ? O_RDWR : O_RDONLY);
    }
    opens(SW_SYNC, O_RDONLY);
    for (int i = 0; i < 4; i++) {
        is_there_by_older_calls(paths[i]);
        opens_otherwise(paths[i]);
    }
    read_only();
    devices(HEAP);
    links();
    alike();
    others();
    if (argc == 1)
        descriptors();
    if (argc == 1)
        no_paths();
    return report("paths");
}
