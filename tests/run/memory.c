/* usage: memory [TRACE]
 *
 * The registry of run/, with each of its allocations refused in turn. A request that was refused memory leaves no object,
 * descriptor or block behind, and after a run every object can be released. Link it with run/'s registry and
 *     -Wl,--wrap=malloc -Wl,--wrap=calloc -Wl,--wrap=realloc */
#define _GNU_SOURCE
#include "../../run/registry.h"
#include <errno.h>
#include <fcntl.h>
#include <poll.h>
#include <signal.h>
#include <stdio.h>
#include <stdlib.h>
#include <string.h>
#include <sys/epoll.h>
#include <sys/mman.h>
#include <unistd.h>

enum { MOST = 200, POINTS = 40, NONE = -1 };

static long left = NONE; /* allocations until one is refused; NONE: never */
static int was_refused, failures, error; /* results of the last request */

void *__real_malloc(size_t size);
void *__real_calloc(size_t count, size_t size);
void *__real_realloc(void *old, size_t size);

static int refuses(void)
{
    if (left == NONE || left-- > 0)
        return 0;
    left = NONE;
    return was_refused = 1;
}

void *__wrap_malloc(size_t size)
{
    return refuses() ? NULL : __real_malloc(size);
}

void *__wrap_calloc(size_t count, size_t size)
{
    return refuses() ? NULL : __real_calloc(count, size);
}

void *__wrap_realloc(void *old, size_t size)
{
    return refuses() ? NULL : __real_realloc(old, size);
}

static void expect(const char *what, long run, long found, long wanted)
{
    if (found == wanted)
        return;
    printf("memory: run %ld: %s: %ld, not %ld\n", run, what, found, wanted);
    failures++;
}

/* A server's host, which needs no care around its calls. */
static void nothing(void) {}

static int same(int file)
{
    return file;
}

static bool no_room(struct registry *registry)
{
    (void)registry;
    return false;
}

static bool any(int file)
{
    return file >= 0;
}

static bool owes_none(struct registry *registry)
{
    (void)registry;
    return false;
}

static const struct host HOST = { nothing, nothing, same, no_room, any, nothing, nothing, owes_none };
static struct registry registry;
static int given[MOST];
static uint64_t inodes[MOST];
static int count;

/* Makes a request. Returns the index of the descriptor in the answer; NONE if the request was refused or gave none. */
static int ask(struct bim_request request, int passed)
{
    struct bim_answer answer;
    int file;

    registry_serve(&registry, &request, passed, &answer, &file);
    error = answer.error;
    if (answer.error)
        expect("a refusal", request.op, answer.error, ENOMEM);
    if (answer.error)
        expect("what a refusal gives", request.op, file, -1);
    if (file < 0)
        return NONE;
    given[count] = file;
    endpoint_mark(file, &inodes[count]);
    return count++;
}

static int ask_of(enum bim_op op, int object, int other, uint32_t value, uint32_t flags)
{
    struct bim_request request = { .op = op, .value = value, .flags = flags };

    if (object == NONE)
        return NONE;
    request.a = inodes[object];
    if (op == BIM_OP_MERGE || op == BIM_OP_IMPORT)
        request.b = other == NONE ? 0 : inodes[other];
    if ((op == BIM_OP_MERGE || op == BIM_OP_IMPORT) && other == NONE)
        return NONE;
    return ask(request, given[object]);
}

static void close_one(int object)
{
    if (object == NONE || given[object] < 0)
        return;
    close(given[object]);
    given[object] = -1;
    ask((struct bim_request){ .op = BIM_OP_GONE, .a = inodes[object] }, -1);
}

/* Makes a buffer of two parts of a memory file. */
static void lend(void)
{
    int file = memfd_create("memory", MFD_CLOEXEC | MFD_ALLOW_SEALING), buffer;

    if (ftruncate(file, 8192) || fcntl(file, F_ADD_SEALS, F_SEAL_SHRINK))
        exit(2);
    buffer = ask((struct bim_request){ .op = BIM_OP_BUFFER, .size = 4096, .flags = 2 }, file);
    if (buffer != NONE)
        ask((struct bim_request){ .op = BIM_OP_EXTEND, .a = inodes[buffer], .size = 4096, .from = 4096 }, file);
    close(file);
}

/* Expects that a poll reports a buffer, or doesn't. */
static void expect_ready(const char *what, int buffer, int is_ready)
{
    struct pollfd polled = { .fd = buffer == NONE ? -1 : given[buffer], .events = POLLIN | POLLOUT };

    poll(&polled, 1, 0);
    expect(what, buffer, polled.revents, buffer != NONE && is_ready ? POLLIN | POLLOUT : 0);
}

/* Makes one request of each kind. Returns a buffer that is ready at the end, or NONE. */
static int play(void)
{
    int line = ask((struct bim_request){ .op = BIM_OP_TIMELINE, .name = "line", .task = "task" }, -1);
    int other = ask((struct bim_request){ .op = BIM_OP_TIMELINE, .name = "other" }, -1);
    int f = ask_of(BIM_OP_FENCE, line, NONE, 1, 0), g = ask_of(BIM_OP_FENCE, other, NONE, 1, 0);
    int both = ask_of(BIM_OP_MERGE, f, g, 0, 0);
    int buffer = ask((struct bim_request){ .op = BIM_OP_BUFFER, .size = 4096, .flags = 2 }, -1);

    ask_of(BIM_OP_IMPORT, buffer, both, 0, BIM_SYNC_WRITE);
    if (both != NONE)
        expect_ready("a poll of a buffer with a file", buffer, error != 0);
    ask_of(BIM_OP_EXPORT, buffer, NONE, 0, BIM_SYNC_READ);
    ask_of(BIM_OP_INFO, both, NONE, 8, 0);
    lend();
    close_one(ask((struct bim_request){ .op = BIM_OP_TEXT }, -1));
    for (int i = 0; i < POINTS; i++)
        ask_of(BIM_OP_FENCE, line, NONE, 5 + i, 0);
    ask_of(BIM_OP_INC, line, NONE, 10, 0);
    if (line == NONE || error)
        buffer = NONE;
    close_one(other);
    return buffer;
}

static int free_number(void)
{
    int file = dup(STDIN_FILENO);

    close(file);
    return file;
}

/* Plays with the nth allocation refused. Returns whether there was an nth allocation. */
static int run(long nth, const char *trace)
{
    int before = free_number(), buffer;

    was_refused = count = 0;
    if (registry_open(&registry, &HOST, trace))
        exit(2);
    registry.endpoints = epoll_create1(EPOLL_CLOEXEC);
    left = nth;
    buffer = play();
    left = NONE;
    registry_settle(&registry);
    expect_ready("a poll of the buffer at the end", buffer, 1);
    for (int i = 0; i < count; i++)
        close_one(i);
    expect("objects", nth, registry.by_inode.count, 0);
    close(registry.endpoints);
    close(registry.page_memory);
    registry_close(&registry);
    expect("the first free descriptor", nth, free_number(), before);
    return was_refused;
}

int main(int words, char **word)
{
    long nth = 0;

    signal(SIGPIPE, SIG_IGN);
    if (words > 1 && trace_begin(word[1]))
        return 2;
    while (run(nth, words > 1 ? word[1] : NULL))
        nth++;
    expect("allocations refused in turn, at least", nth, nth > 100, 1);
    if (!failures)
        printf("memory: as expected\n");
    return failures != 0;
}
