/* Processes that share timelines and files: by fork, by exec and by sockets; and how each of them may end. */
#include "kernel.h"
#include <pthread.h>
#include <signal.h>
#include <spawn.h>

static const char *myself;

/* Runs a function in a child, whose exit status is the function's result. */
static pid_t child_of(int (*run)(int a, int b), int a, int b)
{
    pid_t child = fork();

    if (child == 0) {
        give_up_after(20);
        _exit(run(a, b));
    }
    return child;
}

static int is_cancelled_soon(int file)
{
    return ready(file, POLLIN, SOON) == POLLIN && status(file) == -ENOENT;
}

static int raise_twice(int t, int f)
{
    return is_signalled(f) || inc(t, 1) || is_signalled(f) || inc(t, 1) || !is_signalled(f);
}

/* A child uses the objects that it inherits, and its parent sees the result. */
static void inherited(void)
{
    int t = timeline(), f = fence(t, 2), g = fence(t, 3);
    pid_t child = child_of(raise_twice, t, f);

    EXPECT(ready(f, POLLIN, SOON), POLLIN);
    EXPECT(end_of(child), 0);
    EXPECT(status(f), 1);
    EXPECT(is_signalled(g), 0);
    EXPECT(inc(t, 1), 0);
    EXPECT(status(g), 1);
    close(f);
    close(g);
    close(t);
}

static int told[2];

/* Merges, reports that, and waits for both. */
static int wait_and_merge(int f, int g)
{
    int both = merge("both", f, g);

    return write(told[1], "", 1) != 1 || ready(both, POLLIN, SOON) != POLLIN || status(both) != 1 || size(both) != 2;
}

/* The child waits, and the parent signals. */
static void waited_for(void)
{
    int t = timeline(), u = timeline(), f = fence(t, 1), g = fence(u, 1);
    pid_t child = child_of(wait_and_merge, f, g);
    char byte;

    EXPECT(read(told[0], &byte, 1), 1);
    inc(t, 1);
    inc(u, 1);
    EXPECT(end_of(child), 0);
    int files[] = { t, u, f, g };
    for (int i = 0; i < 4; i++)
        close(files[i]);
}

/* Ends when its parent says so. */
static int hold(int t, int how)
{
    char byte;

    if (read(told[0], &byte, 1) != 1 || inc(t, 0))
        return 1;
    if (how == SIGKILL || how == SIGTERM)
        raise(how);
    if (how == 1)
        exit(0);
    if (how == 2)
        close(t);
    if (how == 2)
        pause_for(100);
    return 0;
}

/* A timeline exists while any process has it, and is closed with the last one, however that ends. */
static void ends(void)
{
    static const int ways[] = { 0, 1, 2, SIGKILL, SIGTERM };
    static const int wanted[] = { 0, 0, 0, 128 + SIGKILL, 128 + SIGTERM };

    for (int i = 0; i < 5; i++) {
        int t = timeline(), f = fence(t, 1);
        fflush(stdout);
        pid_t child = child_of(hold, t, ways[i]);
        close(t);
        EXPECT(ready(f, POLLIN, 20), 0);
        EXPECT(write(told[1], "", 1), 1);
        HOLDS(is_cancelled_soon(f));
        EXPECT(end_of(child), wanted[i]);
        close(f);
    }
}

static int open_and_hand_over(int socket, int killed)
{
    int t = timeline(), f = fence(t, 1), u = timeline(), g = fence(u, 1);

    if (hand_over(socket, t) || hand_over(socket, f) || hand_over(socket, g))
        return 1;
    if (killed)
        raise(SIGKILL);
    return 0;
}

/* A descriptor that was sent stays in the socket when its sender ends; one that wasn't sent is closed. */
static void passed(void)
{
    for (int killed = 0; killed < 2; killed++) {
        int sockets[2];
        EXPECT(socketpair(AF_UNIX, SOCK_STREAM | SOCK_CLOEXEC, 0, sockets), 0);
        EXPECT(end_of(child_of(open_and_hand_over, sockets[1], killed)), killed ? 128 + SIGKILL : 0);
        int t = take_over(sockets[0], 0), f = take_over(sockets[0], 0), g = take_over(sockets[0], 0);
        HOLDS(is_cancelled_soon(g));
        EXPECT(is_signalled(f), 0);
        int more = fence(t, 2);
        EXPECT(inc(t, 1), 0);
        EXPECT(is_signalled(f), 1);
        /* Sent, closed, and never received: it is closed with the socket. */
        EXPECT(hand_over(sockets[1], t), 0);
        close(t);
        pause_for(20);
        EXPECT(is_signalled(more), 0);
        close(sockets[0]);
        close(sockets[1]);
        HOLDS(is_cancelled_soon(more));
        close(f);
        close(g);
        close(more);
    }
}

/* Executes this program again, with two descriptors. */
static int become(int t, int f)
{
    char first[12], second[12];

    snprintf(first, sizeof first, "%d", t);
    snprintf(second, sizeof second, "%d", f);
    execl(myself, myself, first, second, (char *)NULL);
    return 1;
}

/* Checks the two descriptors after an exec. */
static int after_exec(int t, int f)
{
    int mine = fence(t, 5), own = timeline(), other = fence(own, 1), pair = merge("pair", f, mine);

    if (is_signalled(f) || inc(t, 1) || !is_signalled(f) || size(pair) != 1 || inc(own, 1) || !is_signalled(other))
        return 3;
    return 0;
}

/* An exec keeps descriptors without FD_CLOEXEC and closes the others. */
static void executed(void)
{
    int t = timeline(), hidden = open(SW_SYNC, O_RDWR | O_CLOEXEC), f = fence(t, 1), g = fence(hidden, 1), h = fence(t, 2);

    fcntl(f, F_SETFD, 0);
    fflush(stdout);
    pid_t child = child_of(become, t, f);
    close(hidden);
    HOLDS(is_cancelled_soon(g));
    EXPECT(end_of(child), 0);
    EXPECT(is_signalled(f), 1);
    EXPECT(is_signalled(h), 0);
    EXPECT(inc(t, 1), 0);
    EXPECT(status(h), 1);
    int files[] = { t, f, g, h };
    for (int i = 0; i < 4; i++)
        close(files[i]);
}

extern char **environ;

/* posix_spawn, which may use vfork, keeps and closes the same descriptors as exec. */
static void spawned(void)
{
    int t = timeline(), f = fence(t, 1);
    char first[12], second[12];
    char *words[] = { (char *)myself, first, second, NULL };
    pid_t child = 0;

    fcntl(f, F_SETFD, 0);
    snprintf(first, sizeof first, "%d", t);
    snprintf(second, sizeof second, "%d", f);
    EXPECT(posix_spawn(&child, myself, NULL, NULL, words, environ), 0);
    EXPECT(end_of(child), 0);
    EXPECT(is_signalled(f), 1);
    close(f);
    close(t);
}

static int grandchild(int t, int socket)
{
    /* Its parent, the process in the middle, has ended by then. */
    char byte;

    return read(socket, &byte, 1) != 1 || inc(t, 1);
}

static int middle(int t, int socket)
{
    child_of(grandchild, t, socket);
    return 0;
}

/* A process whose parent has ended is served like any other. */
static void orphaned(void)
{
    int t = timeline(), f = fence(t, 1), sockets[2];

    EXPECT(socketpair(AF_UNIX, SOCK_STREAM | SOCK_CLOEXEC, 0, sockets), 0);
    EXPECT(end_of(child_of(middle, t, sockets[0])), 0);
    EXPECT(is_signalled(f), 0);
    EXPECT(write(sockets[1], "", 1), 1);
    EXPECT(ready(f, POLLIN, SOON), POLLIN);
    EXPECT(status(f), 1);
    close(sockets[0]);
    close(sockets[1]);
    close(f);
    close(t);
}

static int use_buffer(int b, int f)
{
    char *memory = mmap(NULL, 4096, PROT_READ | PROT_WRITE, MAP_SHARED, b, 0);

    if (memory == MAP_FAILED || import(b, f, DMA_BUF_SYNC_WRITE))
        return 1;
    memory[0] = 42;
    return ready(b, POLLIN, 0) != 0;
}

/* A buffer's memory and fences are shared by all processes that have it. */
static void buffers(void)
{
    int t = timeline(), f = fence(t, 1), b = buffer(4096);

    EXPECT(end_of(child_of(use_buffer, b, f)), 0);
    char *memory = mmap(NULL, 4096, PROT_READ, MAP_SHARED, b, 0);
    HOLDS(memory != MAP_FAILED && memory[0] == 42);
    EXPECT(ready(b, POLLIN, 0), 0);
    int all = export(b, DMA_BUF_SYNC_READ);
    EXPECT(size(all), 1);
    inc(t, 1);
    EXPECT(ready(b, POLLIN, SOON), POLLIN);
    EXPECT(is_signalled(all), 1);
    munmap(memory, 4096);
    int files[] = { t, f, b, all };
    for (int i = 0; i < 4; i++)
        close(files[i]);
}

static volatile int is_over;

static void *keep_busy(void *wrong)
{
    int t = timeline();

    for (__u32 i = 1; !is_over; i++) {
        int f = fence(t, i), both = merge("both", f, f);
        *(int *)wrong += f < 0 || both < 0 || inc(t, 1) || status(both) != 1 || close(f) || close(both);
    }
    close(t);
    return NULL;
}

static int raise_and_make(int t, int f)
{
    int own = timeline(), mine = fence(own, 1);

    return inc(t, 1) || !is_signalled(f) || inc(own, 1) || !is_signalled(mine) || close(own) || close(mine);
}

/* A process forks while its other threads call. */
static void among_threads(void)
{
    enum { THREADS = 3, FORKS = 30 };
    pthread_t threads[THREADS];
    int wrong[THREADS] = { 0 }, t = timeline();

    for (int i = 0; i < THREADS; i++)
        EXPECT(pthread_create(&threads[i], NULL, keep_busy, &wrong[i]), 0);
    for (__u32 i = 1; i <= FORKS; i++) {
        int f = fence(t, i);
        EXPECT(end_of(child_of(raise_and_make, t, f)), 0);
        EXPECT(is_signalled(f), 1);
        close(f);
    }
    is_over = 1;
    for (int i = 0; i < THREADS; i++) {
        pthread_join(threads[i], NULL);
        EXPECT(wrong[i], 0);
    }
    close(t);
}

/* A signal handler calls while its thread is in a call itself. */
static int handled_timeline;
static volatile int handled;

static void raise_one(int signal)
{
    (void)signal;
    handled += inc(handled_timeline, 1) == 0;
}

static void in_handlers(void)
{
    enum { SIGNALS = 40 };
    struct sigaction action = { .sa_handler = raise_one, .sa_flags = SA_RESTART };
    int wrong = 0;

    handled_timeline = timeline();
    int last = fence(handled_timeline, SIGNALS), other = timeline();
    sigaction(SIGUSR1, &action, NULL);
    pid_t me = getpid(), child = fork();
    if (child == 0) {
        for (int i = 0; i < SIGNALS; i++) {
            kill(me, SIGUSR1);
            pause_for(1);
        }
        _exit(0);
    }
    for (__u32 i = 1; handled < SIGNALS && i < 1000000; i++) {
        int f = fence(other, i);
        wrong += f < 0 || inc(other, 1) || !is_signalled(f) || close(f);
        if (waitpid(child, NULL, WNOHANG) == child)
            break;
    }
    HOLDS(handled > 0);
    EXPECT(wrong, 0);
    EXPECT(is_signalled(last), handled == SIGNALS);
    close(last);
    close(other);
    close(handled_timeline);
}

int main(int argc, char **argv)
{
    myself = argv[0];
    give_up_after(40);
    if (argc == 3)
        return after_exec(atoi(argv[1]), atoi(argv[2]));
    EXPECT(pipe2(told, O_CLOEXEC), 0);
    inherited();
    waited_for();
    ends();
    passed();
    executed();
    spawned();
    orphaned();
    buffers();
    among_threads();
    in_handlers();
    return report("processes");
}
