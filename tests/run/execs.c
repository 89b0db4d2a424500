/* usage: execs [local]
 *
 * A fence that is pending before an exec is pending after it, and also once the process that made it has ended while
 * another process has the timeline. With "local", no process can signal it then. */
#include "kernel.h"
#include <sys/syscall.h>

static int is_local;

/* What a program has: a timeline, a pending file, a buffer with that file in it, and an end of a pipe. */
struct had {
    int t, f, b, pipe;
};

/* Polls by a bare system call, without any library. */
static int says(int fd, short events, int milliseconds)
{
    struct timespec limit = { milliseconds / 1000, milliseconds % 1000 * 1000000L };
    struct pollfd polled = { .fd = fd, .events = events };

    return syscall(SYS_ppoll, &polled, 1, &limit, NULL, 0) == 0 ? 0 : polled.revents;
}

static struct had make(int pipe)
{
    struct had had = { .t = timeline(), .b = buffer(1), .pipe = pipe };

    had.f = fence(had.t, 1);
    EXPECT(import(had.b, had.f, DMA_BUF_SYNC_WRITE), 0);
    return had;
}

static void look(struct had had)
{
    EXPECT(ready(had.f, POLLIN, 20), 0);
    EXPECT(says(had.f, POLLIN, 20), 0);
    EXPECT(says(had.b, POLLIN | POLLOUT, 20), 0);
    if (is_local)
        return;
    EXPECT(inc(had.t, 1), 0);
    EXPECT(ready(had.f, POLLIN, SOON), POLLIN);
    EXPECT(says(had.b, POLLIN, SOON), POLLIN);
}

/* Executes this program again, and passes it the descriptors. */
static void become(struct had had)
{
    int numbers[] = { had.t, had.f, had.b, had.pipe };
    char words[4][16];

    for (int i = 0; i < 4; i++) {
        fcntl(numbers[i], F_SETFD, 0);
        snprintf(words[i], sizeof words[i], "%d", numbers[i]);
    }
    execl("/proc/self/exe", "execs", is_local ? "local" : "shared", words[0], words[1], words[2], words[3], (char *)NULL);
    _exit(99);
}

/* Runs in the new image. If it has a pipe, its parent made the objects, and the pipe reports the end of the parent. */
static int after_exec(char **words)
{
    struct had had = { atoi(words[0]), atoi(words[1]), atoi(words[2]), atoi(words[3]) };
    char byte;

    if (had.pipe > STDERR_FILENO)
        EXPECT(read(had.pipe, &byte, 1), 0);
    look(had);
    if (failures == 0)
        _exit(0);
    fflush(stdout);
    _exit(1);
}

/* One process makes the objects, and executes a new image. */
static void try_exec(void)
{
    pid_t child = fork();

    if (child == 0)
        become(make(STDERR_FILENO));
    EXPECT(end_of(child), 0);
}

/* One process makes the objects, starts another with them, and ends. */
static int try_parent(void)
{
    int alive[2];

    if (pipe2(alive, O_CLOEXEC))
        return 1;
    if (fork() == 0) {
        struct had had = make(alive[0]);
        if (fork() == 0)
            become(had);
        pause_for(50);
        _exit(0);
    }
    close(alive[0]);
    close(alive[1]);
    return 0;
}

/* Orphans become children of this process. */
static int all_end_well(void)
{
    int status, wrong = 0;

    while (wait(&status) > 0)
        wrong |= status;
    return wrong;
}

int main(int argc, char **argv)
{
    give_up_after(30);
    is_local = argc > 1 && strcmp(argv[1], "local") == 0;
    if (argc == 6)
        return after_exec(argv + 2);
    prctl(PR_SET_CHILD_SUBREAPER, 1);
    try_exec();
    EXPECT(try_parent(), 0);
    EXPECT(all_end_well(), 0);
    return report("execs");
}
