/* readlink(2) of the links in /proc that name descriptors. */
#define _GNU_SOURCE
#include "calls.h"
#include "shim.h"
#include "user.h"

#include <errno.h>
#include <stdio.h>
#include <string.h>
#include <sys/param.h>

/* Writes the name that a link in /proc shows for a descriptor. */
static int name_of(int file, char *name, size_t room)
{
    struct bim_answer buffer = { .name = "" };
    uint64_t inode;

    switch (shim_mark(file, &inode)) {
    case BIM_TIMELINE_MARK: return snprintf(name, room, "/sys/kernel/debug/sync/sw_sync");
    case BIM_FILE_MARK: return snprintf(name, room, "anon_inode:sync_file");
    case BIM_HEAP_MARK: return snprintf(name, room, "/dev/dma_heap/system");
    case BIM_UDMABUF_MARK: return snprintf(name, room, "/dev/udmabuf");
    case BIM_BUFFER_MARK:
        shim_memory(file, BIM_NO_PART, &buffer, NULL);
        return snprintf(name, room, "/dmabuf:%s", buffer.name);
    default: return 0;
    }
}

/* Returns whether a text that the kernel has read may be the link of one of our descriptors. */
static bool may_be_link(const char *link, ssize_t length)
{
    static const char *const BEGINNINGS[] = { "pipe:[", "socket:[", "/memfd:device" };
    bool is = false;

    for (size_t i = 0; i < sizeof BEGINNINGS / sizeof BEGINNINGS[0]; i++)
        is |= length > 0 && strncmp(link, BEGINNINGS[i], MIN((size_t)length, strlen(BEGINNINGS[i]))) == 0;
    return is;
}

/* Replaces the kernel's link text by the name of the object to which the path leads. */
static ssize_t read_link(int folder, const char *path, char *link, size_t room, ssize_t length)
{
    char name[64];
    int file, named;

    if (!shim_is_on() || !may_be_link(link, length))
        return length;
    file = syscall(SYS_openat, folder, path, O_PATH | O_CLOEXEC, 0);
    named = file < 0 ? 0 : name_of(file, name, sizeof name);
    if (file >= 0)
        call_close(file);
    if (named == 0)
        return length;
    length = MIN((size_t)named, room);
    return user_put(link, name, length) ? shim_result(EFAULT) : length;
}

EXPORT ssize_t readlink(const char *path, char *link, size_t room)
{
    NEXT(readlink);

    return read_link(AT_FDCWD, path, link, room, next(path, link, room));
}

EXPORT ssize_t readlinkat(int folder, const char *path, char *link, size_t room)
{
    NEXT(readlinkat);

    return read_link(folder, path, link, room, next(folder, path, link, room));
}

/* Entry points of programs built with _FORTIFY_SOURCE. */
ssize_t __readlink_chk(const char *path, char *link, size_t room, size_t size);
ssize_t __readlinkat_chk(int folder, const char *path, char *link, size_t room, size_t size);

EXPORT ssize_t __readlink_chk(const char *path, char *link, size_t room, size_t size)
{
    NEXT(__readlink_chk);

    return read_link(AT_FDCWD, path, link, room, next(path, link, room, size));
}

EXPORT ssize_t __readlinkat_chk(int folder, const char *path, char *link, size_t room, size_t size)
{
    NEXT(__readlinkat_chk);

    return read_link(folder, path, link, room, next(folder, path, link, room, size));
}
