/* usage: unguarded TOOL
 *
 * Runs itself under the tool, whose server, guard and own process are all killed, the guard while it is stopped. Then
 * nothing holds the other ends of the waiting processes' files, and the kernel reports them as hung up, which looks like
 * a signal. Each process waits in another way, and ends with status 123 before it sees that. A hang-up of a pipe of the
 * program's own is still reported. */
#include "service.h"
#include <sched.h>
#include <sys/epoll.h>
#include <sys/mount.h>
#include <sys/select.h>
#include <sys/syscall.h>

enum { LOST = 123, SEEN = 1, WELL = 0, SKIPPED = 2, LONGEST = 15 };

static const char *self;
static int f, b, own, set;

static int set_of(int file, unsigned events)
{
    int made = epoll_create1(0);
    struct epoll_event event = { .events = events };

    return epoll_ctl(made, EPOLL_CTL_ADD, file, &event) ? -1 : made;
}

static int by_epoll_of(int group)
{
    struct epoll_event event;

    return epoll_wait(group, &event, 1, -1) > 0 ? SEEN : WELL;
}

static int by_poll(void)
{
    return ready(f, POLLIN, -1) ? SEEN : WELL;
}

static int by_select_of(int file, int writes)
{
    fd_set files;

    FD_ZERO(&files);
    FD_SET(file, &files);
    return select(file + 1, writes ? NULL : &files, writes ? &files : NULL, NULL, NULL) > 0 ? SEEN : WELL;
}

static int by_select(void)
{
    return by_select_of(f, 0);
}

static int by_select_to_write(void)
{
    return by_select_of(b, 1);
}

static int by_poll_of_buffer(void)
{
    return ready(b, POLLIN | POLLOUT, -1) ? SEEN : WELL;
}

static int by_access(void)
{
    return access_buffer(b, DMA_BUF_SYNC_START | DMA_BUF_SYNC_RW) == 0 ? SEEN : WELL;
}

static int by_epoll(void)
{
    return by_epoll_of(set_of(f, EPOLLIN));
}

static int by_epoll_of_buffer(void)
{
    return by_epoll_of(set_of(b, EPOLLIN | EPOLLOUT | EPOLLET));
}

/* The table is full, so /proc can't be opened without a higher limit. */
static int by_epoll_when_full(void)
{
    struct rlimit limit;
    int group = set_of(f, EPOLLIN);

    getrlimit(RLIMIT_NOFILE, &limit);
    limit.rlim_cur = limit.rlim_max = (rlim_t)lowest();
    setrlimit(RLIMIT_NOFILE, &limit);
    return by_epoll_of(group);
}

/* The library in the new program hasn't seen what the set watches. */
static int by_epoll_after_exec(void)
{
    char word[16];

    set = set_of(f, EPOLLIN);
    fcntl(f, F_SETFD, 0);
    snprintf(word, sizeof word, "%d", set);
    execl(self, self, "--set", word, (char *)NULL);
    return SKIPPED;
}

/* The number that was added is closed, or means another file. A copy is open. */
static int by_epoll_of_closed(void)
{
    int copy = dup(f), group = set_of(copy, EPOLLIN);

    close(copy);
    return by_epoll_of(group);
}

static int by_epoll_of_reused(void)
{
    int copy = dup(f), group = set_of(copy, EPOLLIN);

    dup2(open("/dev/null", O_RDONLY), copy);
    return by_epoll_of(group);
}

static int by_epoll_without_proc(void)
{
    int group = set_of(f, EPOLLIN);

    if (unshare(CLONE_NEWNS) || mount("none", "/", NULL, MS_REC | MS_PRIVATE, NULL) || mount("none", "/proc", "tmpfs", 0, NULL))
        return SKIPPED;
    return by_epoll_of(group);
}

static int by_set_in_set(void)
{
    int inner = set_of(f, EPOLLIN), outer = set_of(inner, EPOLLIN);

    by_epoll_of(outer);
    return by_epoll_of(inner);
}

/* A pipe of the program's own, whose other end is closed after the service is lost. */
static int of_own(void)
{
    struct epoll_event event = { .events = 0 };

    return epoll_wait(set_of(own, EPOLLIN), &event, 1, -1) == 1 && event.events == EPOLLHUP ? WELL : SEEN;
}

static const struct {
    const char *name;
    int (*waits)(void);
    int end;
} ways[] = {
    { "poll", by_poll, LOST },
    { "select", by_select, LOST },
    { "poll of a buffer", by_poll_of_buffer, LOST },
    { "select of a buffer", by_select_to_write, LOST },
    { "an access to a buffer", by_access, LOST },
    { "epoll", by_epoll, LOST },
    { "epoll of a buffer", by_epoll_of_buffer, LOST },
    { "epoll when full", by_epoll_when_full, LOST },
    { "epoll after exec", by_epoll_after_exec, LOST },
    { "epoll of a closed number", by_epoll_of_closed, LOST },
    { "epoll of a reused number", by_epoll_of_reused, LOST },
    { "epoll without /proc", by_epoll_without_proc, LOST },
    { "a set in a set", by_set_in_set, LOST },
    { "a pipe of its own", of_own, WELL },
};
enum { WAYS = sizeof ways / sizeof *ways };

static pid_t begin(int (*waits)(void), int closed)
{
    pid_t child = fork();

    if (child)
        return child;
    close(closed);
    alarm(LONGEST);
    _exit(waits());
}

/* Kills all three. The stopped guard can't kill the others. */
static void kill_all(void)
{
    pid_t found[MOST];
    int count = service(getppid(), getpid(), found), guard = 0;

    for (int i = 1; i < count; i++)
        if (is_named(found[i], "fence-guard"))
            guard = i;
    HOLDS(guard && kill(found[guard], SIGSTOP) == 0);
    pause_for(100);
    for (int i = 0; i < count; i++)
        if (i == 0 || is_named(found[i], "bimphlai-run"))
            EXPECT(kill(found[i], SIGKILL), 0);
    EXPECT(kill(found[guard], SIGKILL), 0);
}

static int program(void)
{
    int t = timeline(), pipes[2];
    pid_t children[WAYS];

    give_up_after(2 * LONGEST);
    /* The tool is killed, and with it the parent of the tool's children. */
    prctl(PR_SET_CHILD_SUBREAPER, 1);
    f = fence(t, 1);
    b = buffer(1);
    EXPECT(pipe(pipes), 0);
    own = pipes[0];
    EXPECT(import(b, f, DMA_BUF_SYNC_WRITE), 0);
    fflush(stdout);
    for (int i = 0; i < WAYS; i++)
        children[i] = begin(ways[i].waits, pipes[1]);
    pause_for(500);
    kill_all();
    pause_for(500);
    close(pipes[1]);
    for (int i = 0; i < WAYS; i++) {
        int end = end_of(children[i]);
        if (end != ways[i].end && end != SKIPPED)
            printf("%s: its status is %d\n", ways[i].name, end);
        HOLDS(end == ways[i].end || end == SKIPPED);
    }
    return report("unguarded");
}

int main(int argc, char **argv)
{
    int pair[2];
    char said[4096] = "";
    size_t length = 0;
    ssize_t more;

    self = argv[0];
    if (argc > 2 && strcmp(argv[1], "--set") == 0)
        return by_epoll_of(atoi(argv[2]));
    if (argc > 1 && strcmp(argv[1], "--in") == 0)
        return program();
    if (argc < 2 || pipe(pair))
        return 2;
    if (fork() == 0) {
        dup2(pair[1], STDOUT_FILENO);
        close(pair[0]);
        close(pair[1]);
        dup2(open("/dev/null", O_WRONLY), STDERR_FILENO);
        execl(argv[1], argv[1], self, "--in", (char *)NULL);
        _exit(99);
    }
    close(pair[1]);
    while ((more = read(pair[0], said + length, sizeof said - 1 - length)) > 0)
        length += (size_t)more;
    fputs(said, stdout);
    return strcmp(said, "unguarded: as expected\n") != 0;
}
