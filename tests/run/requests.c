/* usage: requests SEED COUNT
 *
 * Sends COUNT requests, most of them valid, from several connections: they make objects, extend buffers by memory files
 * of all seals and sizes, import and merge, with sizes and offsets that overflow, and with descriptors of all kinds.
 * Meanwhile another process compares the answers that it gets with what Linux answers. */
#include "service.h"
#include "client.h"
#include <sys/epoll.h>
#include <sys/eventfd.h>

enum { CLIENTS = 6, OBJECTS = 64, PASSED = 24, PAGE = 4096, ALL_SEALS = 32 };

static unsigned long long state;

static unsigned pick(unsigned below)
{
    state = state * 6364136223846793005u + 1442695040888963407u;
    return (unsigned)(state >> 33) % below;
}

/* The objects made so far, by the service's number, and descriptors to send along. */
static struct {
    __u64 number;
    int file;
} objects[OBJECTS];
static int passed[PASSED];

/* A size or an offset: few, some pages, and what overflows. */
static __u64 size_of_any(void)
{
    switch (pick(8)) {
    case 0: return ~0ull;
    case 1: return 1ull << 63;
    case 2: return pick(5);
    case 3: return PAGE * pick(10);
    case 4: return ~0ull - PAGE + 1;
    case 5: return (__u64)pick(1u << 31) << pick(33);
    default: return pick(20000);
    }
}

static void make_passed(void)
{
    int ends[2], made;

    for (int i = 0; i < PASSED; i++) {
        made = passed[i] = memfd_create("requests", MFD_ALLOW_SEALING | MFD_CLOEXEC);
        EXPECT(ftruncate(made, pick(2) ? PAGE * pick(9) : pick(40000)), 0);
        fcntl(made, F_ADD_SEALS, pick(ALL_SEALS));
    }
    EXPECT(socketpair(AF_UNIX, SOCK_STREAM | SOCK_CLOEXEC, 0, ends), 0);
    const int others[] = { epoll_create1(EPOLL_CLOEXEC), eventfd(0, EFD_CLOEXEC), ends[0], open("/dev/null", O_RDWR | O_CLOEXEC),
                           (int)syscall(SYS_pidfd_open, getpid(), 0), open("/proc", O_RDONLY | O_DIRECTORY | O_CLOEXEC) };
    for (size_t i = 0; i < sizeof others / sizeof *others; i++)
        if (dup3(others[i], passed[i], O_CLOEXEC) >= 0)
            close(others[i]);
    close(ends[1]);
}

static struct bim_request request_of_any(void)
{
    struct bim_request request = { .op = (uint16_t)pick(BIM_OPS + 1), .size = size_of_any(), .processor = (uint16_t)pick(65536) };

    request.thread = pick(9) ? getpid() : (int32_t)size_of_any();
    request.value = pick(3) ? pick(5) : (__u32)size_of_any();
    request.flags = pick(3) ? pick(4) : (__u32)size_of_any();
    request.a = pick(12) ? objects[pick(OBJECTS)].number : size_of_any();
    if (pick(2))
        request.b = objects[pick(OBJECTS)].number;
    for (size_t i = 0; i < sizeof request.name; i++)
        request.name[i] = (char)(pick(4) ? 'a' + pick(26) : pick(256));
    if (request.op == BIM_OP_EXTEND || (request.op == BIM_OP_BUFFER && pick(2)))
        request.from = size_of_any();
    for (size_t i = 0; i < sizeof request.task; i++)
        request.task[i] = (char)pick(256);
    return request;
}

/* Returns a descriptor to send along, or -1. */
static int passed_with(struct bim_request *request)
{
    unsigned at = pick(OBJECTS);

    if (request->op == BIM_OP_IMPORT && objects[at].file >= 0 && pick(4)) {
        request->a = objects[at].number;
        return objects[at].file;
    }
    if (request->op != BIM_OP_EXTEND && request->op != BIM_OP_IMPORT && pick(3))
        return -1;
    return pick(2) && objects[at].file >= 0 ? objects[at].file : passed[pick(PASSED)];
}

static int post(int client, const struct bim_request *request, int fd)
{
    union {
        struct cmsghdr header;
        char room[CMSG_SPACE(sizeof(int))];
    } control = { .header = { .cmsg_level = SOL_SOCKET, .cmsg_type = SCM_RIGHTS, .cmsg_len = CMSG_LEN(sizeof fd) } };
    struct iovec part = { (void *)request, sizeof *request };
    struct msghdr message = { .msg_iov = &part, .msg_iovlen = 1 };

    if (fd >= 0) {
        memcpy(CMSG_DATA(&control.header), &fd, sizeof fd);
        message.msg_control = &control;
        message.msg_controllen = sizeof control;
    }
    return sendmsg(client, &message, MSG_NOSIGNAL) >= 0;
}

/* Takes an answer and the descriptor that came with it, or -1. Returns whether there was one. */
static int take(int client, int *given)
{
    union {
        struct cmsghdr header;
        char room[CMSG_SPACE(4 * sizeof(int))];
    } control;
    struct bim_answer answer;
    struct iovec part = { &answer, sizeof answer };
    struct msghdr message = { .msg_iov = &part, .msg_iovlen = 1, .msg_control = &control, .msg_controllen = sizeof control };
    ssize_t length = recvmsg(client, &message, MSG_CMSG_CLOEXEC);
    struct cmsghdr *with = length > 0 ? CMSG_FIRSTHDR(&message) : NULL;

    *given = -1;
    if (with)
        memcpy(given, CMSG_DATA(with), sizeof *given);
    return length > 0;
}

static int makes_object(const struct bim_request *request)
{
    return request->op == BIM_OP_TIMELINE || request->op == BIM_OP_FENCE || request->op == BIM_OP_MERGE ||
           request->op == BIM_OP_EXPORT || request->op == BIM_OP_BUFFER;
}

static void keep(const struct bim_request *request, int given)
{
    unsigned at = pick(OBJECTS);

    if (given < 0)
        return;
    if (!makes_object(request)) {
        syscall(SYS_close, given);
        return;
    }
    if (objects[at].file >= 0)
        syscall(SYS_close, objects[at].file);
    objects[at].file = given;
    objects[at].number = number_of(given);
}

/* Sends a request, and takes its answer. Returns whether the service goes on with this connection. */
static int ask_any(int client)
{
    struct bim_request request = request_of_any();
    int fd = passed_with(&request), given;

    if (!post(client, &request, fd) || !take(client, &given))
        return 0;
    keep(&request, given);
    return 1;
}

static void ask_all(long count)
{
    int clients[CLIENTS];

    for (int i = 0; i < CLIENTS; i++)
        clients[i] = connected();
    for (long sent = 0; sent < count; sent++) {
        unsigned at = pick(CLIENTS);
        if (clients[at] < 0)
            break;
        if (ask_any(clients[at]) && pick(3000))
            continue;
        close(clients[at]);
        clients[at] = connected();
        HOLDS(clients[at] >= 0);
    }
    for (int i = 0; i < CLIENTS; i++)
        close(clients[i]);
}

/* Plays with fences and a buffer until the pipe says that it is over. */
static int served(int told)
{
    int wrong = 0, rounds = 0;
    char byte;

    while (recv(told, &byte, 1, MSG_DONTWAIT) < 0) {
        int t = timeline(), first = fence(t, 1), second = fence(t, 2), both = merge("both", first, second), b = buffer(PAGE);
        wrong += import(b, both, DMA_BUF_SYNC_WRITE) || ready(b, POLLIN, 0) || is_signalled(both);
        wrong += inc(t, 1) || !is_signalled(first) || is_signalled(both) || ready(b, POLLIN, 0);
        wrong += inc(t, 1) || !is_signalled(both) || ready(b, POLLIN, SOON) != POLLIN;
        wrong += close(t) || close(first) || close(second) || close(both) || close(b);
        rounds++;
    }
    if (wrong || rounds == 0)
        printf("%d of %d rounds went wrong\n", wrong, rounds);
    return wrong || rounds == 0;
}

int main(int argc, char **argv)
{
    int told[2], t = timeline(), f = fence(t, 1);
    pid_t found[MOST], child;

    give_up_after(120);
    int many = service(getppid(), getpid(), found), before = held(found, many);
    state = argc > 1 ? strtoull(argv[1], NULL, 10) : 1;
    EXPECT(socketpair(AF_UNIX, SOCK_STREAM | SOCK_CLOEXEC, 0, told), 0);
    fflush(stdout);
    child = fork();
    if (child == 0)
        _exit(served(told[1]));
    make_passed();
    for (int i = 0; i < OBJECTS; i++)
        objects[i].file = -1;
    ask_all(argc > 2 ? atol(argv[2]) : 1000);
    for (int i = 0; i < OBJECTS; i++)
        if (objects[i].file >= 0)
            syscall(SYS_close, objects[i].file);
    EXPECT(send(told[0], "", 1, MSG_NOSIGNAL), 1);
    EXPECT(end_of(child), 0);
    expect_held(found, many, before);
    EXPECT(is_signalled(f), 0);
    EXPECT(inc(t, 1), 0);
    EXPECT(is_signalled(f), 1);
    for (int i = 0; i < PASSED; i++)
        close(passed[i]);
    close(f);
    close(t);
    return report("requests");
}
