#define _GNU_SOURCE
#include "user.h"

#include <errno.h>
#include <sys/syscall.h>
#include <sys/uio.h>
#include <unistd.h>

enum { PAGE = 4096 };

/* Has the kernel copy, which fails where our own access would fault. */
static int copy(long call, void *here, const void *there, size_t length)
{
    struct iovec local = { here, length }, remote = { (void *)there, length };
    long copied = syscall(call, syscall(SYS_getpid), &local, 1L, &remote, 1L, 0L);

    if (copied == (long)length)
        return 0;
    return copied >= 0 || errno == EFAULT ? EFAULT : errno;
}

int user_get_far(void *to, const void *from, size_t length)
{
    int error = copy(SYS_process_vm_readv, to, from, length);

    /* A seccomp filter may refuse the copy. */
    if (error && error != EFAULT)
        memcpy(to, from, length);
    return error == EFAULT ? EFAULT : 0;
}

int user_put_far(void *to, const void *from, size_t length)
{
    if (copy(SYS_process_vm_writev, (void *)from, to, length) == EFAULT)
        return EFAULT;
    /* Copied once more by our own code, so that tools which watch the program's memory see the access. */
    memcpy(to, from, length);
    return 0;
}

/* Reads byte by byte, since the memory after the string's end may be unmapped. */
static int read_text(char *to, const char *from, size_t room)
{
    for (size_t i = 0; i < room; i++) {
        to[i] = from[i];
        if (!to[i])
            return 0;
    }
    return EINVAL;
}

/* Has the kernel copy the text, page by page. */
static int copy_text(char *to, const char *from, size_t room)
{
    for (size_t length = 0, part; length < room; length += part) {
        int error;

        part = PAGE - (uintptr_t)(from + length) % PAGE;
        part = part < room - length ? part : room - length;
        error = copy(SYS_process_vm_readv, to + length, from + length, part);
        if (error)
            return error == EFAULT ? EFAULT : read_text(to, from, room);
        if (memchr(to + length, 0, part))
            return 0;
    }
    return EINVAL;
}

int user_get_text(char *to, const char *from, size_t room)
{
    return user_is_near(from, room) ? read_text(to, from, room) : copy_text(to, from, room);
}
