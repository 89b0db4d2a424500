/* Calls of pipes and sockets fail on a file or a buffer, as in Linux: no process makes one ready, or takes its
 * readiness away. */
#include "kernel.h"
#include <sys/sendfile.h>
#include <sys/uio.h>
#include <sys/un.h>

/* A bad pointer makes no difference to the errors, so the calls get valid pointers. */
static void no_socket(int fd)
{
    char bytes[8] = { 0 };
    struct iovec part = { bytes, sizeof bytes };
    struct msghdr message = { .msg_iov = &part, .msg_iovlen = 1 };
    struct mmsghdr messages = { .msg_hdr = message };
    struct sockaddr_un name = { .sun_family = AF_UNIX };
    struct sockaddr *at = (struct sockaddr *)&name;
    socklen_t size = sizeof name;
    int value = 0;

    FAILS(shutdown(fd, SHUT_RDWR), ENOTSOCK);
    FAILS(recv(fd, bytes, sizeof bytes, MSG_DONTWAIT), ENOTSOCK);
    FAILS(recvfrom(fd, bytes, sizeof bytes, MSG_DONTWAIT, at, &size), ENOTSOCK);
    FAILS(recvmsg(fd, &message, MSG_DONTWAIT), ENOTSOCK);
    FAILS(recvmmsg(fd, &messages, 1, MSG_DONTWAIT, NULL), ENOTSOCK);
    FAILS(send(fd, bytes, sizeof bytes, MSG_DONTWAIT | MSG_NOSIGNAL), ENOTSOCK);
    FAILS(sendto(fd, bytes, sizeof bytes, MSG_DONTWAIT | MSG_NOSIGNAL, NULL, 0), ENOTSOCK);
    FAILS(sendmsg(fd, &message, MSG_DONTWAIT | MSG_NOSIGNAL), ENOTSOCK);
    FAILS(sendmmsg(fd, &messages, 1, MSG_DONTWAIT | MSG_NOSIGNAL), ENOTSOCK);
    FAILS(getsockname(fd, at, &size), ENOTSOCK);
    FAILS(getpeername(fd, at, &size), ENOTSOCK);
    FAILS(getsockopt(fd, SOL_SOCKET, SO_TYPE, &value, &size), ENOTSOCK);
    FAILS(setsockopt(fd, SOL_SOCKET, SO_SNDBUF, &value, sizeof value), ENOTSOCK);
    FAILS(bind(fd, at, sizeof name.sun_family), ENOTSOCK);
    FAILS(connect(fd, at, sizeof name.sun_family), ENOTSOCK);
    FAILS(listen(fd, 1), ENOTSOCK);
    FAILS(accept(fd, NULL, NULL), ENOTSOCK);
    FAILS(accept4(fd, NULL, NULL, SOCK_CLOEXEC), ENOTSOCK);
}

/* Calls of sockets and pipes that receive or send. */
static void no_pipe(int fd, int sending)
{
    static char bytes[4096];
    struct iovec part = { bytes, sizeof bytes };
    int pipes[2], text = open("/proc/self/exe", O_RDONLY), left;

    EXPECT(pipe(pipes), 0);
    EXPECT(write(pipes[1], bytes, 100), 100);
    FAILS(vmsplice(fd, &part, 1, SPLICE_F_NONBLOCK), EBADF);
    FAILS(splice(fd, NULL, pipes[1], NULL, 1, SPLICE_F_NONBLOCK), EINVAL);
    FAILS(splice(pipes[0], NULL, fd, NULL, 1, SPLICE_F_NONBLOCK), EINVAL);
    FAILS(tee(fd, pipes[1], 1, SPLICE_F_NONBLOCK), EINVAL);
    FAILS(sendfile(pipes[1], fd, NULL, 1), EINVAL);
    FAILS(sendfile(fd, text, NULL, 1), sending);
    FAILS(read(fd, bytes, sizeof bytes), EINVAL);
    FAILS(readv(fd, &part, 1), EINVAL);
    FAILS(ioctl(fd, TIOCOUTQ, &left), ENOTTY);
    FAILS(ioctl(fd, SIOCATMARK, &left), ENOTTY);
    close(text);
    close(pipes[0]);
    close(pipes[1]);
}

int main(void)
{
    int before = lowest(), t = timeline(), f = fence(t, 1), reader = fence(t, 2), b = buffer(1), idle = buffer(1);
    char bytes[8] = { 0 };

    give_up_after(20);
    EXPECT(import(b, reader, DMA_BUF_SYNC_READ), 0);
    for (int i = 0; i < 2; i++) {
        int files[] = { f, b, idle };
        for (int n = 0; n < 3; n++) {
            no_socket(files[n]);
            no_pipe(files[n], n == 0 ? EBADF : EINVAL);
        }
        FAILS(write(b, bytes, 1), EINVAL);
        FAILS(write(f, bytes, 1), EBADF);
        EXPECT(is_signalled(f), i);
        EXPECT(ready(b, POLLIN | POLLOUT, 0), POLLIN);
        EXPECT(ready(idle, POLLIN | POLLOUT, 0), POLLIN | POLLOUT);
        inc(t, i == 0);
    }
    EXPECT(access_buffer(idle, DMA_BUF_SYNC_START | DMA_BUF_SYNC_RW), 0);
    EXPECT(inc(t, 1), 0);
    EXPECT(ready(b, POLLIN | POLLOUT, 0), POLLIN | POLLOUT);
    int files[] = { t, f, reader, b, idle };
    for (int i = 0; i < 5; i++)
        close(files[i]);
    EXPECT(lowest(), before);
    return report("sockets");
}
