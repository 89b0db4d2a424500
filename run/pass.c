#define _GNU_SOURCE
#include "pass.h"

#include "calls.h"

#include <string.h>

/* Room for one descriptor. Its alignment leaves room for another. */
union control {
    struct cmsghdr head;
    char room[CMSG_SPACE(sizeof(int))];
};

ssize_t pass_send(int socket, const void *bytes, size_t length, int passed, int how)
{
    union control control = { .room = { 0 } };
    struct iovec part = { (void *)bytes, length };
    struct msghdr message = { .msg_iov = &part, .msg_iovlen = 1 };

    if (passed >= 0) {
        message.msg_control = control.room;
        message.msg_controllen = sizeof control.room;
        control.head.cmsg_level = SOL_SOCKET;
        control.head.cmsg_type = SCM_RIGHTS;
        control.head.cmsg_len = CMSG_LEN(sizeof passed);
        memcpy(CMSG_DATA(&control.head), &passed, sizeof passed);
    }
    return syscall(SYS_sendmsg, socket, &message, how | MSG_NOSIGNAL);
}

static int first_of(struct msghdr *message)
{
    struct cmsghdr *head = CMSG_FIRSTHDR(message);
    int first = -1, each;

    if (!head || head->cmsg_level != SOL_SOCKET || head->cmsg_type != SCM_RIGHTS)
        return -1;
    for (size_t at = 0; CMSG_LEN(at) < head->cmsg_len; at += sizeof each) {
        memcpy(&each, CMSG_DATA(head) + at, sizeof each);
        if (first < 0)
            first = each;
        else
            call_close(each);
    }
    return first;
}

ssize_t pass_receive(int socket, void *bytes, size_t room, int *passed, int how)
{
    union control control = { .room = { 0 } };
    struct iovec part = { bytes, room };
    struct msghdr message = {
        .msg_iov = &part, .msg_iovlen = 1, .msg_control = control.room, .msg_controllen = sizeof control.room
    };
    ssize_t length = syscall(SYS_recvmsg, socket, &message, how | MSG_CMSG_CLOEXEC | MSG_TRUNC);

    *passed = length < 0 ? -1 : first_of(&message);
    return length;
}
