/* Messages that no client sends. Each has one answer or none. */
#include "client.h"

enum { PAGE = 4096, GUESSES = 300 };

/* Sends bytes, with a descriptor unless it is -1. Returns whether they were sent. */
static int post(int client, const void *bytes, size_t length, int passed)
{
    union {
        struct cmsghdr header;
        char room[CMSG_SPACE(sizeof(int))];
    } control = { .header = { .cmsg_level = SOL_SOCKET, .cmsg_type = SCM_RIGHTS, .cmsg_len = CMSG_LEN(sizeof passed) } };
    struct iovec part = { .iov_base = (void *)(uintptr_t)bytes, .iov_len = length };
    struct msghdr header = { .msg_iov = &part, .msg_iovlen = 1 };

    if (passed >= 0) {
        memcpy(CMSG_DATA(&control.header), &passed, sizeof passed);
        header.msg_control = &control;
        header.msg_controllen = sizeof control;
    }
    return sendmsg(client, &header, MSG_NOSIGNAL) == (ssize_t)length;
}

/* Returns the errno in the service's answer, or -1 if the service has closed the connection. */
static int answer_of(int client)
{
    struct bim_answer answer;
    struct timeval longest = { .tv_sec = SOON / 1000 };

    setsockopt(client, SOL_SOCKET, SO_RCVTIMEO, &longest, sizeof longest);
    return recv(client, &answer, sizeof answer, 0) <= 0 ? -1 : answer.error;
}

/* A message shorter or longer than a request gets no answer, whatever was sent before. */
static void lengths(void)
{
    static const size_t LENGTHS[] = { 1, 2, 4, offsetof(struct bim_request, a), sizeof(struct bim_request) - 1,
                                      sizeof(struct bim_request) + 1 };
    int t = timeline(), f = fence(t, 1);
    struct {
        struct bim_request request;
        char more;
    } message = { .request = { .op = BIM_OP_INC, .value = 0, .a = number_of(t) } };

    for (size_t i = 0; i < sizeof LENGTHS / sizeof *LENGTHS; i++) {
        int whole = connected(), other = connected();
        EXPECT(post(whole, &message.request, sizeof message.request, -1), 1);
        EXPECT(answer_of(whole), 0);
        message.request.value = 1;
        EXPECT(post(other, &message, LENGTHS[i], -1), 1);
        EXPECT(answer_of(other), -1);
        message.request.value = 0;
        close(whole);
        close(other);
    }
    EXPECT(is_signalled(f), 0);
    close(f);
    close(t);
}

/* An import into one buffer that passes the descriptor of another doesn't clear the other's readiness. */
static void other_buffers(void)
{
    int t = timeline(), f = fence(t, 1), one = buffer(PAGE), other = buffer(PAGE), client = connected();
    struct bim_request request = {
        .op = BIM_OP_IMPORT, .flags = DMA_BUF_SYNC_RW, .a = number_of(one), .b = number_of(f)
    };

    EXPECT(post(client, &request, sizeof request, other), 1);
    EXPECT(answer_of(client), EBADF);
    EXPECT(ready(other, POLLIN | POLLOUT, 0), POLLIN | POLLOUT);
    EXPECT(ready(one, POLLIN | POLLOUT, 0), POLLIN | POLLOUT);
    EXPECT(post(client, &request, sizeof request, f), 1);
    EXPECT(answer_of(client), EBADF);
    EXPECT(post(client, &request, sizeof request, -1), 1);
    EXPECT(answer_of(client), EBADF);
    EXPECT(is_signalled(f), 0);
    int files[] = { client, f, t, one, other };
    for (int i = 0; i < 5; i++)
        close(files[i]);
}

/* Returns how many numbers near `around` name a timeline that can be incremented. */
static int guessed(int client, __u64 around)
{
    struct bim_request request = { .op = BIM_OP_INC, .value = 1 };
    int found = 0;

    for (__u64 number = around - GUESSES; number != around + GUESSES; number++) {
        request.a = number;
        if (number != around && post(client, &request, sizeof request, -1))
            found += answer_of(client) == 0;
    }
    return found;
}

/* Tries to guess the numbers of other processes' objects from its own. */
static int guess(void)
{
    int pipes[2], client = connected(), t = timeline();
    struct stat found;

    if (client < 0 || t < 0 || pipe(pipes) || fstat(pipes[0], &found))
        return -1;
    return guessed(client, found.st_ino) + guessed(client, number_of(t));
}

/* A process that never had a descriptor of a timeline can't name it. */
static void strangers(void)
{
    int t = timeline(), f = fence(t, 1);
    pid_t child;

    fflush(stdout);
    child = fork();
    if (child == 0) {
        close(t);
        close(f);
        _exit(guess());
    }
    EXPECT(end_of(child), 0);
    EXPECT(is_signalled(f), 0);
    close(f);
    close(t);
}

int main(void)
{
    int before = lowest();

    give_up_after(30);
    lengths();
    other_buffers();
    strangers();
    EXPECT(lowest(), before);
    return report("messages");
}
