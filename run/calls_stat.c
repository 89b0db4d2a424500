/* stat(2) and access(2): of the paths by which programs reach fences, and of our descriptors. */
#define _GNU_SOURCE
#include "calls.h"
#include "paths.h"
#include "shim.h"
#include "user.h"

#include <errno.h>
#include <sys/sysmacros.h>

/* The mode of a file of debugfs, or of a device. */
static mode_t mode_of(enum path path)
{
    return path == DMA_HEAP || path == UDMABUF ? S_IFCHR | 0600 : path == SYNC_INFO ? S_IFREG | 0444 : S_IFREG | 0644;
}

static int fill_stat(struct stat *found, enum path path)
{
    struct stat filled = { .st_mode = mode_of(path), .st_nlink = 1, .st_blksize = sysconf(_SC_PAGESIZE) };

    return shim_result(user_put(found, &filled, sizeof filled));
}

static int fill_statx(struct statx *found, enum path path)
{
    struct statx filled = {
        .stx_mask = STATX_BASIC_STATS, .stx_mode = mode_of(path), .stx_nlink = 1, .stx_blksize = sysconf(_SC_PAGESIZE)
    };

    return shim_result(user_put(found, &filled, sizeof filled));
}

/* Returns what Linux shows as the mode of a descriptor, and as the size of a buffer. */
static mode_t mode_of_file(int file, mode_t mode, uint64_t *size)
{
    struct bim_answer buffer;

    *size = 0;
    if (S_ISREG(mode) && shim_is_device(file))
        return S_IFCHR | 0600;
    if (S_ISSOCK(mode) && shim_memory(file, BIM_NO_PART, &buffer, NULL) == 0)
        *size = buffer.size;
    return mode;
}

/* Corrects what the kernel has filled in for a descriptor. */
static int correct_stat(int file, struct stat *found)
{
    uint64_t size;

    if (!(found->st_mode & S_ISVTX))
        return 0;
    found->st_mode = mode_of_file(file, found->st_mode, &size);
    if (size > 0) {
        found->st_size = size;
        found->st_blocks = size / 512;
    }
    return 0;
}

static int correct_statx(int file, struct statx *found)
{
    uint64_t size;

    if (!(found->stx_mode & S_ISVTX))
        return 0;
    found->stx_mode = mode_of_file(file, found->stx_mode, &size);
    if (size > 0) {
        found->stx_size = size;
        found->stx_blocks = size / 512;
    }
    return 0;
}

/* Returns whether a call that the kernel has answered was for a descriptor only. */
static bool has_no_path(const char *path, int flags)
{
    return flags & AT_EMPTY_PATH && (!path || !path[0]);
}

/* On 64-bit machines, both structs have the same layout. */
#define STAT(name, type)                                                \
    EXPORT int name(const char *path, struct type *found)               \
    {                                                                   \
        NEXT(name);                                                     \
        int result = next(path, found);                                 \
        enum path which = path_after(path, result < 0);                 \
                                                                        \
        return which ? fill_stat((struct stat *)found, which) : result; \
    }

STAT(stat, stat)
STAT(stat64, stat64)
STAT(lstat, stat)
STAT(lstat64, stat64)

#define FSTAT(name, type)                                                  \
    EXPORT int name(int file, struct type *found)                          \
    {                                                                      \
        NEXT(name);                                                        \
        int result = next(file, found);                                    \
                                                                           \
        return result ? result : correct_stat(file, (struct stat *)found); \
    }

FSTAT(fstat, stat)
FSTAT(fstat64, stat64)

/* Completes the answer of the kernel to a call with a folder, or with a descriptor only. */
static int after_fstatat(int folder, const char *path, struct stat *found, int flags, int result)
{
    enum path which = path_after(path, result < 0);

    if (which)
        return fill_stat(found, which);
    return result == 0 && has_no_path(path, flags) ? correct_stat(folder, found) : result;
}

#define FSTATAT(name, type)                                                      \
    EXPORT int name(int folder, const char *path, struct type *found, int flags) \
    {                                                                            \
        NEXT(name);                                                              \
        int result = next(folder, path, found, flags);                           \
                                                                                 \
        return after_fstatat(folder, path, (struct stat *)found, flags, result); \
    }

FSTATAT(fstatat, stat)
FSTATAT(fstatat64, stat64)

/* Entry points of programs built with a C library before 2.33. */
#define XSTAT(name, type)                                               \
    int name(int version, const char *path, struct type *found);        \
    EXPORT int name(int version, const char *path, struct type *found)  \
    {                                                                   \
        NEXT(name);                                                     \
        int result = next(version, path, found);                        \
        enum path which = path_after(path, result < 0);                 \
                                                                        \
        return which ? fill_stat((struct stat *)found, which) : result; \
    }

XSTAT(__xstat, stat)
XSTAT(__xstat64, stat64)
XSTAT(__lxstat, stat)
XSTAT(__lxstat64, stat64)

#define FXSTAT(name, type)                                                 \
    int name(int version, int file, struct type *found);                   \
    EXPORT int name(int version, int file, struct type *found)             \
    {                                                                      \
        NEXT(name);                                                        \
        int result = next(version, file, found);                           \
                                                                           \
        return result ? result : correct_stat(file, (struct stat *)found); \
    }

FXSTAT(__fxstat, stat)
FXSTAT(__fxstat64, stat64)

#define FXSTATAT(name, type)                                                                  \
    int name(int version, int folder, const char *path, struct type *found, int flags);       \
    EXPORT int name(int version, int folder, const char *path, struct type *found, int flags) \
    {                                                                                         \
        NEXT(name);                                                                           \
        int result = next(version, folder, path, found, flags);                               \
                                                                                              \
        return after_fstatat(folder, path, (struct stat *)found, flags, result);              \
    }

FXSTATAT(__fxstatat, stat)
FXSTATAT(__fxstatat64, stat64)

EXPORT int statx(int folder, const char *path, int flags, unsigned mask, struct statx *found)
{
    NEXT(statx);
    int result = next(folder, path, flags, mask, found);
    enum path which = path_after(path, result < 0);

    if (which)
        return fill_statx(found, which);
    return result == 0 && has_no_path(path, flags) ? correct_statx(folder, found) : result;
}

/* All users may read and write; none may execute. */
static int check_access(enum path path, int how)
{
    return shim_result(how & X_OK || (path == SYNC_INFO && how & W_OK) ? EACCES : 0);
}

EXPORT int access(const char *path, int how)
{
    NEXT(access);
    int result = next(path, how);
    enum path which = path_after(path, result < 0);

    return which ? check_access(which, how) : result;
}

EXPORT int faccessat(int folder, const char *path, int how, int flags)
{
    NEXT(faccessat);
    int result = next(folder, path, how, flags);
    enum path which = path_after(path, result < 0);

    return which ? check_access(which, how) : result;
}
