/* usage: fuzz SEED COUNT
 *
 * Sends COUNT messages to the service that no client sends: random bytes, and valid requests that are cut, extended or
 * altered, with all kinds of descriptors, by clients that don't read their answers or disconnect. Meanwhile the service
 * still serves another process. */
#include "client.h"
#include "service.h"
#include <sched.h>

enum { MOST_BYTES = 3 * sizeof(struct bim_request), MOST_SENT = 3, LAZY = 40, CHANNELS = 10 };

static unsigned long long state;

static unsigned pick(unsigned below)
{
    state = state * 6364136223846793005u + 1442695040888963407u;
    return (unsigned)(state >> 33) % below;
}

/* Objects named in messages, and descriptors sent along. */
static int timelines[2], files[2], buffers[2], others[2];

static __u64 some_number(void)
{
    int *all[] = { timelines, files, buffers, others };

    /* A random number is so great that no other process has it. */
    return pick(8) == 0 ? (__u64)pick(1u << 31) << 32 : number_of(all[pick(4)][pick(2)]);
}

/* Returns a request that a client could send. */
static struct bim_request good(void)
{
    struct bim_request request = { .op = pick(BIM_OPS + 2), .value = pick(40), .flags = pick(5), .size = pick(9000) };

    request.a = some_number();
    request.b = some_number();
    memcpy(request.name, "name", 5);
    memcpy(request.task, "fuzz", 5);
    request.thread = getpid();
    return request;
}

/* Builds a message. Returns its length. */
static size_t message(unsigned char bytes[MOST_BYTES])
{
    struct bim_request request = good();
    size_t length = sizeof request;
    unsigned kind = pick(8);

    for (size_t i = 0; i < MOST_BYTES; i++)
        bytes[i] = (unsigned char)pick(256);
    if (kind == 0)
        return pick(MOST_BYTES + 1);
    /* Alters a byte outside the fields that name the objects. */
    if (kind < 4)
        for (unsigned left = 1 + pick(4); left > 0; left--) {
            size_t at = pick(sizeof request);
            if (at < offsetof(struct bim_request, a) || at >= offsetof(struct bim_request, size))
                ((unsigned char *)&request)[at] = (unsigned char)pick(256);
        }
    if (kind == 4)
        length = 1 + pick(sizeof request);
    if (kind == 5)
        length = sizeof request + pick(MOST_BYTES - sizeof request);
    if (kind == 6) {
        memset(request.name, 'x', sizeof request.name);
        memset(request.task, 'x', sizeof request.task);
    }
    memcpy(bytes, &request, sizeof request);
    return length;
}

/* Sends a message with some descriptors. Returns whether it was sent. */
static int post(int client)
{
    union {
        struct cmsghdr header;
        char room[CMSG_SPACE(MOST_SENT * sizeof(int))];
    } control = { .header = { .cmsg_level = SOL_SOCKET, .cmsg_type = SCM_RIGHTS } };
    int *all[] = { timelines, files, buffers, others }, sent[MOST_SENT], count = pick(3) ? 0 : (int)pick(MOST_SENT + 1);
    unsigned char bytes[MOST_BYTES];
    struct iovec part = { .iov_base = bytes, .iov_len = message(bytes) };
    struct msghdr header = { .msg_iov = &part, .msg_iovlen = 1 };

    for (int i = 0; i < count; i++)
        sent[i] = all[pick(4)][pick(2)];
    if (count > 0) {
        header.msg_control = &control;
        header.msg_controllen = CMSG_SPACE((size_t)count * sizeof(int));
        control.header.cmsg_len = CMSG_LEN((size_t)count * sizeof(int));
        memcpy(CMSG_DATA(&control.header), sent, (size_t)count * sizeof(int));
    }
    return sendmsg(client, &header, MSG_NOSIGNAL | MSG_DONTWAIT) >= 0 || errno == EAGAIN;
}

/* Takes all answers, and closes the descriptors that came with them. Returns whether the connection is open. */
static int drain(int client)
{
    union {
        struct cmsghdr header;
        char room[CMSG_SPACE(4 * sizeof(int))];
    } control;
    struct bim_answer answer;
    ssize_t length;

    for (;;) {
        struct iovec part = { .iov_base = &answer, .iov_len = sizeof answer };
        struct msghdr header = { .msg_iov = &part, .msg_iovlen = 1, .msg_control = &control, .msg_controllen = sizeof control };
        length = recvmsg(client, &header, MSG_DONTWAIT | MSG_CMSG_CLOEXEC);
        struct cmsghdr *with = length > 0 ? CMSG_FIRSTHDR(&header) : NULL;
        for (size_t at = 0; with && CMSG_LEN(at) < with->cmsg_len; at += sizeof(int)) {
            int fd;
            memcpy(&fd, CMSG_DATA(with) + at, sizeof fd);
            close(fd);
        }
        if (length <= 0)
            return length < 0 && (errno == EAGAIN || errno == EINTR);
    }
}

/* The memory that run/channel.h shares with a process. */
struct channel {
    volatile uint32_t turn;
    struct bim_request request;
    struct bim_answer answer;
};

/* Asks for a descriptor. Returns it, or -1. */
static int given(int client, uint32_t op)
{
    struct bim_request request = { .op = op };
    struct timeval longest = { .tv_sec = SOON / 1000 };
    union {
        struct cmsghdr header;
        char room[CMSG_SPACE(sizeof(int))];
    } control;
    struct bim_answer answer;
    struct iovec part = { .iov_base = &answer, .iov_len = sizeof answer };
    struct msghdr header = { .msg_iov = &part, .msg_iovlen = 1, .msg_control = &control, .msg_controllen = sizeof control };
    int fd = -1;

    setsockopt(client, SOL_SOCKET, SO_RCVTIMEO, &longest, sizeof longest);
    if (send(client, &request, sizeof request, MSG_NOSIGNAL) < 0 || recvmsg(client, &header, MSG_CMSG_CLOEXEC) <= 0)
        return -1;
    struct cmsghdr *with = CMSG_FIRSTHDR(&header);
    if (with)
        memcpy(&fd, CMSG_DATA(with), sizeof fd);
    return fd;
}

/* Writes into a channel what no client writes, also while the service reads it. */
static void play(struct channel *channel, int doorbell, int times)
{
    unsigned char bytes[MOST_BYTES];
    __u64 once = 1;

    for (int i = 0; i < times; i++) {
        message(bytes);
        memcpy(&channel->request, bytes, sizeof channel->request);
        channel->turn = pick(4) ? 1 : pick(8) ? pick(4) : (uint32_t)pick(1u << 31);
        if (write(doorbell, &once, sizeof once) != sizeof once)
            return;
        message(bytes);
        memcpy(&channel->request, bytes, sizeof channel->request);
        if (pick(8) == 0)
            sched_yield();
    }
}

/* Runs clients with a channel each. They can't shrink its memory. */
static void play_in_channels(int times)
{
    for (int i = 0; i < CHANNELS; i++) {
        int client = connected(), memory = given(client, BIM_OP_CHANNEL), doorbell = given(client, BIM_OP_DOORBELL);
        struct channel *channel = mmap(NULL, sizeof *channel, PROT_READ | PROT_WRITE, MAP_SHARED, memory, 0);
        HOLDS(channel != MAP_FAILED && doorbell >= 0);
        EXPECT(ftruncate(memory, 0), -1);
        if (channel != MAP_FAILED) {
            play(channel, doorbell, times / CHANNELS);
            munmap(channel, sizeof *channel);
        }
        close(memory);
        close(doorbell);
        close(client);
    }
}

/* Uses the service until the pipe says that the messages are over. Returns the number of errors. */
static int served(int told)
{
    int wrong = 0, rounds = 0;
    char byte;

    give_up_after(60);
    while (recv(told, &byte, 1, MSG_DONTWAIT) < 0) {
        int t = timeline(), a = fence(t, 1), b = fence(t, 2), both = merge("served", a, b);
        wrong += is_signalled(a) || inc(t, 1) || !is_signalled(a) || is_signalled(both) || size(both) != 1;
        wrong += close(t) || status(both) != -ENOENT || status(a) != 1 || close(a) || close(b) || close(both);
        rounds++;
    }
    if (wrong || rounds == 0)
        printf("of %d rounds of the process that is served %d went wrong\n", rounds, wrong);
    return wrong != 0 || rounds == 0;
}

/* Runs clients that send, never read, and leave. */
static void be_lazy(void)
{
    int clients[LAZY];

    for (int i = 0; i < LAZY; i++) {
        clients[i] = connected();
        HOLDS(clients[i] >= 0);
        for (int sent = 0; sent < 100 && post(clients[i]); sent++) {
        }
    }
    for (int i = 0; i < LAZY; i++)
        close(clients[i]);
}

static void send_all(int count)
{
    int client = connected();

    for (int i = 0; i < count; i++) {
        if (!post(client) || !drain(client) || pick(500) == 0) {
            close(client);
            client = connected();
            if (client < 0)
                break;
        }
    }
    HOLDS(client >= 0);
    close(client);
}

int main(int argc, char **argv)
{
    int told[2], pipes[2], t = timeline(), f = fence(t, 1);
    pid_t found[MOST];
    int count = argc > 2 ? atoi(argv[2]) : 1000;

    give_up_after(60);
    int many = service(getppid(), getpid(), found), before = held(found, many);
    state = argc > 1 ? (unsigned long long)atoll(argv[1]) : 1;
    EXPECT(socketpair(AF_UNIX, SOCK_STREAM, 0, told), 0);
    EXPECT(pipe(pipes), 0);
    fflush(stdout);
    pid_t child = fork();
    if (child == 0)
        _exit(served(told[1]));
    for (int i = 0; i < 2; i++) {
        timelines[i] = timeline();
        files[i] = fence(timelines[i], 1000000);
        buffers[i] = buffer(4096);
        others[i] = pipes[i];
    }
    be_lazy();
    play_in_channels(count / 2);
    send_all(count);
    EXPECT(write(told[0], "", 1), 1);
    EXPECT(end_of(child), 0);
    for (int i = 0; i < 2; i++) {
        close(timelines[i]);
        close(files[i]);
        close(buffers[i]);
    }
    expect_held(found, many, before);
    EXPECT(is_signalled(f), 0);
    EXPECT(inc(t, 1), 0);
    EXPECT(is_signalled(f), 1);
    close(f);
    close(t);
    return report("fuzz");
}
