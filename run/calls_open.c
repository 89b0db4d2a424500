/* open(2) of the paths by which programs reach fences. */
#define _GNU_SOURCE
#include "calls.h"
#include "direct.h"
#include "paths.h"
#include "shim.h"
#include "step.h"

#include <errno.h>
#include <stdarg.h>
#include <stdio.h>
#include <string.h>
#include <sys/mman.h>
#include <sys/prctl.h>

/* Opens a device: a descriptor that only has its mark. The service makes the objects. */
static int open_device(enum bim_mark mark)
{
    int file = memfd_create("device", MFD_CLOEXEC | MFD_ALLOW_SEALING);

    if (file < 0)
        return -1;
    if (syscall(SYS_fcntl, file, F_ADD_SEALS, F_SEAL_WRITE | F_SEAL_GROW | F_SEAL_SHRINK | F_SEAL_SEAL) == 0 &&
        syscall(SYS_fchmod, file, mark & ~S_IFMT) == 0)
        return file;
    call_close(file);
    return shim_result(ENODEV);
}

static int open_by_service(enum path path)
{
    struct bim_request request = { .op = path == SW_SYNC ? BIM_OP_TIMELINE : BIM_OP_TEXT };

    prctl(PR_GET_NAME, request.name);
    return path == SW_SYNC ? step_ask_for_file(STEP_TIMELINE, &request) : shim_ask_for_file(&request);
}

/* Returns the kernel's error for flags that don't fit a file, or 0. */
static int refusal_of_open(enum path path, int flags)
{
    if (flags & O_CREAT && flags & O_EXCL)
        return EEXIST;
    if (flags & O_DIRECTORY)
        return ENOTDIR;
    return path == SYNC_INFO && (flags & O_ACCMODE) != O_RDONLY ? EACCES : 0;
}

static int open_path(enum path path, int flags)
{
    int file = -1, error = flags & O_PATH ? 0 : refusal_of_open(path, flags);

    if (error)
        return shim_result(error);
    /* An O_PATH descriptor only says that the path exists. */
    if (flags & O_PATH)
        return syscall(SYS_openat, AT_FDCWD, "/dev/null", flags, 0);
    switch (path) {
    case DMA_HEAP: file = open_device(BIM_HEAP_MARK); break;
    case UDMABUF: file = open_device(BIM_UDMABUF_MARK); break;
    default: file = open_by_service(path); break;
    }
    if (file >= 0 && !(flags & O_CLOEXEC))
        syscall(SYS_fcntl, file, F_SETFD, 0);
    return file;
}

/* Opens one of our files in place of the file that the kernel may have opened. */
static int replace_file(enum path path, int flags, int opened)
{
    if (opened >= 0)
        call_close(opened);
    return open_path(path, flags);
}

/* Returns whether a path may name one of our descriptors. If its mode denies the owner access, the kernel's open has
 * failed with EACCES, except for root. */
static bool may_be_descriptor(const char *path, int opened)
{
    if (opened < 0 && errno != EACCES)
        return false;
    return strncmp(path, "/proc/", 6) == 0 || strncmp(path, "/dev/fd/", 8) == 0;
}

static enum bim_mark mark_of_path(const char *path)
{
    int before = errno, file = syscall(SYS_openat, AT_FDCWD, path, O_PATH | O_CLOEXEC, 0);
    enum bim_mark mark;
    uint64_t inode;

    mark = shim_mark(file, &inode);
    if (file >= 0)
        call_close(file);
    errno = before;
    return mark;
}

static int refuse_file(int opened)
{
    if (opened >= 0)
        call_close(opened);
    return shim_result(ENXIO);
}

/* Does what the kernel does for a path below /proc of a descriptor of ours: opening a timeline's path makes another
 * timeline; a file's or a buffer's path can't be opened. */
static int reopen(const char *path, int flags, int opened)
{
    uint64_t inode;

    if (!shim_is_on() || flags & O_PATH || !may_be_descriptor(path, opened))
        return opened;
    switch (opened < 0 ? mark_of_path(path) : shim_mark(opened, &inode)) {
    case BIM_TIMELINE_MARK: return replace_file(SW_SYNC, flags, opened);
    case BIM_FILE_MARK: return refuse_file(opened);
    default: return opened;
    }
}

static bool makes_files(int flags)
{
    return flags & (O_CREAT | __O_TMPFILE);
}

/* Returns whether to check the path before the kernel's open, which would create a file, or be caught as a direct
 * call. */
static bool looks_first(int flags)
{
    return makes_files(flags) || direct_is_on();
}

bool shim_open(const char *path, int flags, int *file)
{
    enum path which = path_before(path);

    if (which)
        *file = open_path(which, flags);
    return which;
}

#define MODE_OF(flags)                \
    mode_t mode = 0;                  \
    if (makes_files(flags)) {         \
        va_list words;                \
        va_start(words, flags);       \
        mode = va_arg(words, mode_t); \
        va_end(words);                \
    }

#define OPEN(name)                                                                   \
    EXPORT int name(const char *path, int flags, ...)                                \
    {                                                                                \
        NEXT(name);                                                                  \
        MODE_OF(flags)                                                               \
        enum path which = looks_first(flags) ? path_before(path) : NOT_OURS;         \
        int file = which ? -1 : next(path, flags, mode);                             \
                                                                                     \
        if (!which && !looks_first(flags))                                           \
            which = path_after(path, file < 0);                                      \
        return which ? replace_file(which, flags, file) : reopen(path, flags, file); \
    }

#define OPENAT(name)                                                                 \
    EXPORT int name(int folder, const char *path, int flags, ...)                    \
    {                                                                                \
        NEXT(name);                                                                  \
        MODE_OF(flags)                                                               \
        enum path which = looks_first(flags) ? path_before(path) : NOT_OURS;         \
        int file = which ? -1 : next(folder, path, flags, mode);                     \
                                                                                     \
        if (!which && !looks_first(flags))                                           \
            which = path_after(path, file < 0);                                      \
        return which ? replace_file(which, flags, file) : reopen(path, flags, file); \
    }

OPEN(open)
OPEN(open64)
OPENAT(openat)
OPENAT(openat64)

#define CREAT(name)                                                        \
    EXPORT int name(const char *path, mode_t mode)                         \
    {                                                                      \
        NEXT(name);                                                        \
        enum path which = path_before(path);                               \
                                                                           \
        return which ? open_path(which, O_WRONLY) : next(path, mode);      \
    }

CREAT(creat)
CREAT(creat64)

/* Entry points of programs built with _FORTIFY_SOURCE. */
int __open_2(const char *path, int flags);
int __open64_2(const char *path, int flags);
int __openat_2(int folder, const char *path, int flags);
int __openat64_2(int folder, const char *path, int flags);

EXPORT int __open_2(const char *path, int flags)
{
    return open(path, flags);
}

EXPORT int __open64_2(const char *path, int flags)
{
    return open64(path, flags);
}

EXPORT int __openat_2(int folder, const char *path, int flags)
{
    return openat(folder, path, flags);
}

EXPORT int __openat64_2(int folder, const char *path, int flags)
{
    return openat64(folder, path, flags);
}

/* Opens a stream over one of our descriptors. Only the text of sync/info is ever read. The C library opens a stream on
 * a pipe's read end only for reading. */
static FILE *open_stream(enum path path, const char *mode)
{
    int flags = strchr(mode, '+') ? O_RDWR : mode[0] == 'r' ? O_RDONLY : O_WRONLY;
    int file = open_path(path, flags | (strchr(mode, 'e') ? O_CLOEXEC : 0));
    FILE *stream = file < 0 ? NULL : fdopen(file, "r");

    if (file >= 0 && !stream)
        close(file);
    return stream;
}

#define FOPEN(name)                                                 \
    EXPORT FILE *name(const char *path, const char *mode)           \
    {                                                               \
        NEXT(name);                                                 \
        enum path which = path_before(path);                        \
                                                                    \
        return which ? open_stream(which, mode) : next(path, mode); \
    }

FOPEN(fopen)
FOPEN(fopen64)
