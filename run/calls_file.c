/* Other calls on descriptors: Linux's sync files can be neither read nor written. */
#define _GNU_SOURCE
#include "calls.h"
#include "recorder.h"
#include "shim.h"
#include "user.h"

#include <errno.h>
#include <sys/sendfile.h>
#include <sys/time.h>
#include <sys/uio.h>

/* Bytes that a program reads from its own pipes and sockets order threads, which a plan keeps. */
static ssize_t received(int file, ssize_t result)
{
    if (result >= 0)
        recorder_receive(file);
    return result;
}

static bool has_mark(int file)
{
    uint64_t inode;

    return shim_mark(file, &inode) != 0;
}

EXPORT ssize_t read(int file, void *bytes, size_t length)
{
    NEXT(read);

    return has_mark(file) ? shim_result(EINVAL) : received(file, next(file, bytes, length));
}

EXPORT ssize_t readv(int file, const struct iovec *parts, int count)
{
    NEXT(readv);

    return has_mark(file) ? shim_result(EINVAL) : received(file, next(file, parts, count));
}

/* Entry points of programs built with _FORTIFY_SOURCE. */
ssize_t __read_chk(int file, void *bytes, size_t length, size_t room);

EXPORT ssize_t __read_chk(int file, void *bytes, size_t length, size_t room)
{
    NEXT(__read_chk);

    return has_mark(file) ? shim_result(EINVAL) : received(file, next(file, bytes, length, room));
}

/* Corrects the error of a write. A pipe's read end and a sealed file can't be written anyway, but in Linux a timeline
 * and a heap are open for writing. */
static ssize_t written(int file, ssize_t result)
{
    uint64_t inode;

    if (result >= 0 || (errno != EBADF && errno != EPERM))
        return result;
    switch (shim_mark(file, &inode)) {
    case BIM_TIMELINE_MARK:
    case BIM_HEAP_MARK:
    case BIM_UDMABUF_MARK: errno = EINVAL; break;
    default: break;
    }
    return result;
}

EXPORT ssize_t write(int file, const void *bytes, size_t length)
{
    NEXT(write);
    uint64_t inode;

    recorder_send(file);
    return shim_is_buffer(file, &inode) ? shim_result(EINVAL) : written(file, next(file, bytes, length));
}

EXPORT ssize_t writev(int file, const struct iovec *parts, int count)
{
    NEXT(writev);
    uint64_t inode;

    recorder_send(file);
    return shim_is_buffer(file, &inode) ? shim_result(EINVAL) : written(file, next(file, parts, count));
}

/* These would take the byte by which a file reports that it has signalled. */
EXPORT ssize_t splice(int from, off64_t *at, int to, off64_t *to_at, size_t length, unsigned flags)
{
    NEXT(splice);

    return has_mark(from) || has_mark(to) ? shim_result(EINVAL) : next(from, at, to, to_at, length, flags);
}

EXPORT ssize_t tee(int from, int to, size_t length, unsigned flags)
{
    NEXT(tee);

    return has_mark(from) || has_mark(to) ? shim_result(EINVAL) : next(from, to, length, flags);
}

EXPORT ssize_t vmsplice(int file, const struct iovec *parts, size_t count, unsigned flags)
{
    NEXT(vmsplice);

    return has_mark(file) ? shim_result(EBADF) : next(file, parts, count, flags);
}

/* A sync file isn't open for writing. */
static ssize_t refuse_sending(int to)
{
    uint64_t inode;

    return shim_result(shim_mark(to, &inode) == BIM_FILE_MARK ? EBADF : EINVAL);
}

EXPORT ssize_t sendfile(int to, int from, off_t *at, size_t length)
{
    NEXT(sendfile);

    return has_mark(to) || has_mark(from) ? refuse_sending(to) : next(to, from, at, length);
}

EXPORT ssize_t sendfile64(int to, int from, off64_t *at, size_t length)
{
    NEXT(sendfile64);

    return has_mark(to) || has_mark(from) ? refuse_sending(to) : next(to, from, at, length);
}

/* The end of a buffer is its size. */
static off_t seek(int file, off_t to, int whence)
{
    struct bim_answer buffer;

    if (shim_memory(file, BIM_NO_PART, &buffer, NULL))
        return shim_result(ESPIPE);
    if (to != 0 || (whence != SEEK_SET && whence != SEEK_END))
        return shim_result(EINVAL);
    return whence == SEEK_END ? (off_t)buffer.size : 0;
}

#define LSEEK(name)                                                     \
    EXPORT off_t name(int file, off_t to, int whence)                   \
    {                                                                   \
        NEXT(name);                                                     \
        off_t at = next(file, to, whence);                              \
                                                                        \
        return at < 0 && errno == ESPIPE ? seek(file, to, whence) : at; \
    }

LSEEK(lseek)
LSEEK(lseek64)

/* The mode and the access time of our inodes identify the object, so they must not change. In Linux, they belong to an
 * inode that many files share. */
EXPORT int fchmod(int file, mode_t mode)
{
    NEXT(fchmod);

    return has_mark(file) ? 0 : next(file, mode);
}

EXPORT int futimens(int file, const struct timespec times[2])
{
    NEXT(futimens);

    return has_mark(file) ? 0 : next(file, times);
}

EXPORT int futimes(int file, const struct timeval times[2])
{
    NEXT(futimes);

    return has_mark(file) ? 0 : next(file, times);
}
