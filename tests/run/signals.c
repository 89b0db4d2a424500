/* Signal handlers that are set by signal(2) and its relatives, each in a process of its own. A program that only makes,
 * increments and closes gets no SIGPIPE. */
#include "kernel.h"
#include <pthread.h>
#include <signal.h>
#include <sys/syscall.h>

enum { SIGNALS = 150 };

typedef void handler(int);
typedef handler *set_handler(int number, handler *handler);

extern set_handler bsd_signal, sysv_signal, __sysv_signal, ssignal;
static set_handler *const SETTERS[] = { signal, bsd_signal, ssignal, sysv_signal, __sysv_signal };
enum { MOST_SETTERS = sizeof SETTERS / sizeof *SETTERS };

static set_handler *set;
static pthread_t interrupted;
static int line_of_handler;
static volatile int taken, wrong;

/* Makes a pending fence, and signals it by incrementing its timeline. Returns the number of errors. */
static int play(int line, __u32 point)
{
    int f = fence(line, point), bad = f < 0 || status(f) != 0;

    bad += inc(line, 1) != 0 || !is_signalled(f) || status(f) != 1;
    return bad + (close(f) != 0);
}

/* Some of these set a handler for only one signal. */
static void handle(int number)
{
    int before = errno;

    wrong += play(line_of_handler, (__u32)taken + 1);
    set(number, handle);
    taken++;
    errno = before;
}

static void *send_signals(void *unused)
{
    for (int i = 0; i < SIGNALS; i++) {
        while (taken < i)
            usleep(50);
        usleep(100 + 77 * (useconds_t)(i % 16));
        pthread_kill(interrupted, SIGUSR1);
    }
    return unused;
}

/* Sets the program's first handler by `by`. The handler's calls are answered while another call is interrupted. */
static int interrupt(set_handler *by)
{
    int line = timeline();
    pthread_t sender;

    set = by;
    line_of_handler = timeline();
    interrupted = pthread_self();
    HOLDS(set(SIGUSR1, handle) == SIG_DFL);
    EXPECT(pthread_create(&sender, NULL, send_signals, NULL), 0);
    for (__u32 point = 1; taken < SIGNALS; point++)
        wrong += play(line, point);
    pthread_join(sender, NULL);
    EXPECT(wrong, 0);
    close(line);
    close(line_of_handler);
    return failures != 0;
}

static void try_setters(void)
{
    for (int i = 0; i < MOST_SETTERS; i++) {
        pid_t child;

        fflush(stdout);
        child = fork();
        if (child == 0) {
            give_up_after(30);
            int failed = interrupt(SETTERS[i]);
            fflush(stdout);
            _exit(failed);
        }
        EXPECT(end_of(child), 0);
    }
}

static int is_pending(void)
{
    sigset_t pending;

    sigpending(&pending);
    return sigismember(&pending, SIGPIPE);
}

/* Signals a file that no process has any more, since it was closed by a call that no library sees. */
static void signal_closed(int line, __u32 point)
{
    int f = fence(line, point);

    syscall(SYS_close, f);
    EXPECT(inc(line, 1), 0);
}

static volatile int broken;

static void count_broken(int number)
{
    (void)number;
    broken++;
}

static void try_broken(void)
{
    sigset_t pipe, before;
    int t = timeline();

    signal_closed(t, 1);
    signal(SIGPIPE, count_broken);
    signal_closed(t, 2);
    EXPECT(broken, 0);
    sigemptyset(&pipe);
    sigaddset(&pipe, SIGPIPE);
    sigprocmask(SIG_BLOCK, &pipe, &before);
    signal_closed(t, 3);
    EXPECT(is_pending(), 0);
    /* The program's own SIGPIPE is still pending, and is the only one. */
    raise(SIGPIPE);
    signal_closed(t, 4);
    EXPECT(is_pending(), 1);
    EXPECT(broken, 0);
    sigprocmask(SIG_SETMASK, &before, NULL);
    EXPECT(broken, 1);
    close(t);
}

int main(void)
{
    give_up_after(60);
    try_setters();
    try_broken();
    return report("signals");
}
