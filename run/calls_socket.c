/* Socket calls. A buffer is represented by a socket, and a kernel's buffer isn't one: a program must neither shut it
 * down nor take the byte that makes it ready. */
#define _GNU_SOURCE
#include "recorder.h"
#include "shim.h"

#include <errno.h>
#include <sys/socket.h>
#include <sys/types.h>

static bool is_buffer(int file)
{
    uint64_t inode;

    return shim_is_buffer(file, &inode);
}

#define ON_SOCKET(type, name, parameters, arguments)                     \
    type name parameters;                                                \
    EXPORT type name parameters                                          \
    {                                                                    \
        NEXT(name);                                                      \
                                                                         \
        return is_buffer(file) ? shim_result(ENOTSOCK) : next arguments; \
    }

/* Bytes that arrive order threads, which a plan keeps (recorder.h). */
#define ON_RECEIVING(type, name, parameters, arguments)                  \
    type name parameters;                                                \
    EXPORT type name parameters                                          \
    {                                                                    \
        NEXT(name);                                                      \
        type result;                                                     \
                                                                         \
        if (is_buffer(file))                                             \
            return shim_result(ENOTSOCK);                                \
        result = next arguments;                                         \
        if (result >= 0)                                                 \
            recorder_receive(file);                                      \
        return result;                                                   \
    }

#define ON_SENDING(type, name, parameters, arguments)                    \
    type name parameters;                                                \
    EXPORT type name parameters                                          \
    {                                                                    \
        NEXT(name);                                                      \
                                                                         \
        if (is_buffer(file))                                             \
            return shim_result(ENOTSOCK);                                \
        recorder_send(file);                                             \
        return next arguments;                                           \
    }

#define FROM __SOCKADDR_ARG
#define TO   __CONST_SOCKADDR_ARG

ON_SOCKET(int, shutdown, (int file, int how), (file, how))
ON_RECEIVING(ssize_t, recv, (int file, void *bytes, size_t length, int flags), (file, bytes, length, flags))
ON_RECEIVING(ssize_t, recvfrom,
          (int file, void *restrict bytes, size_t length, int flags, FROM from, socklen_t *restrict size),
          (file, bytes, length, flags, from, size))
ON_RECEIVING(ssize_t, recvmsg, (int file, struct msghdr *message, int flags), (file, message, flags))
ON_RECEIVING(int, recvmmsg,
          (int file, struct mmsghdr *messages, unsigned int count, int flags, struct timespec *limit),
          (file, messages, count, flags, limit))
ON_SENDING(ssize_t, send, (int file, const void *bytes, size_t length, int flags), (file, bytes, length, flags))
ON_SENDING(ssize_t, sendto, (int file, const void *bytes, size_t length, int flags, TO to, socklen_t size),
          (file, bytes, length, flags, to, size))
ON_SENDING(ssize_t, sendmsg, (int file, const struct msghdr *message, int flags), (file, message, flags))
ON_SENDING(int, sendmmsg, (int file, struct mmsghdr *messages, unsigned int count, int flags),
          (file, messages, count, flags))
ON_SOCKET(int, getsockname, (int file, FROM name, socklen_t *restrict size), (file, name, size))
ON_SOCKET(int, getpeername, (int file, FROM name, socklen_t *restrict size), (file, name, size))
ON_SOCKET(int, getsockopt, (int file, int level, int option, void *restrict value, socklen_t *restrict size),
          (file, level, option, value, size))
ON_SOCKET(int, setsockopt, (int file, int level, int option, const void *value, socklen_t size),
          (file, level, option, value, size))
ON_SOCKET(int, bind, (int file, TO name, socklen_t size), (file, name, size))
ON_SOCKET(int, connect, (int file, TO name, socklen_t size), (file, name, size))
ON_SOCKET(int, listen, (int file, int waiting), (file, waiting))
ON_SOCKET(int, accept, (int file, FROM name, socklen_t *restrict size), (file, name, size))
ON_SOCKET(int, accept4, (int file, FROM name, socklen_t *restrict size, int flags), (file, name, size, flags))
/* Entry points of programs built with _FORTIFY_SOURCE. */
ON_RECEIVING(ssize_t, __recv_chk, (int file, void *bytes, size_t length, size_t room, int flags),
          (file, bytes, length, room, flags))
ON_RECEIVING(ssize_t, __recvfrom_chk,
          (int file, void *restrict bytes, size_t length, size_t room, int flags, FROM from, socklen_t *restrict size),
          (file, bytes, length, room, flags, from, size))

EXPORT int socketpair(int family, int type, int protocol, int files[2])
{
    NEXT(socketpair);
    int result = next(family, type, protocol, files);

    if (result == 0)
        recorder_pair(files);
    return result;
}
