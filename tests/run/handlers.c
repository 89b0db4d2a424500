/* usage: handlers [forking|unseen|sigset|alias|without-jumps]
 *
 * Threads that make, merge, increment and close, each interrupted at any point by a signal handler that does so too, or
 * that jumps away, which leaves descriptors open; with "forking", by one that forks. With "unseen" the handlers are
 * installed without the preloaded library's knowledge; with "sigset" and "alias", by other names of sigaction. */
#include "kernel.h"
#include <dlfcn.h>
#include <pthread.h>
#include <setjmp.h>
#include <signal.h>

enum { THREADS = 4, SIGNALS = 150, FORKS = 12, JUMPS = 150 };

struct worker {
    pthread_t thread;
    int line, line_of_handler;
    __u32 value_of_handler;
    volatile int rounds, wrong, handled, wrong_in_handler;
};

static struct worker workers[THREADS];
static volatile int is_over;
static __thread struct worker *self;
static int (*install)(int number, const struct sigaction *action, struct sigaction *before) = sigaction;

/* Makes a pending fence, and signals it by incrementing its timeline. Returns the number of errors. */
static int play(int line, __u32 point)
{
    int f = fence(line, point), both = merge("both", f, f), wrong = 0;

    wrong += f < 0 || both < 0 || status(f) != 0 || is_signalled(both);
    wrong += inc(line, 1) != 0 || !is_signalled(f) || status(both) != 1;
    return wrong + (close(f) != 0) + (close(both) != 0);
}

static void handle(int signal)
{
    int before = errno;

    (void)signal;
    self->wrong_in_handler += play(self->line_of_handler, ++self->value_of_handler);
    self->handled++;
    errno = before;
}

static void handle_signal(int number, void (*handler)(int), int flags)
{
    struct sigaction action = { .sa_handler = handler, .sa_flags = flags };

    EXPECT(install(number, &action, NULL), 0);
}

static void *work(void *given)
{
    self = given;
    for (__u32 point = 1; !is_over; point++) {
        self->wrong += play(self->line, point);
        self->rounds++;
    }
    return NULL;
}

static void begin(struct worker *worker)
{
    worker->line = timeline();
    worker->line_of_handler = timeline();
    EXPECT(pthread_create(&worker->thread, NULL, work, worker), 0);
    while (worker->rounds == 0)
        pause_for(1);
}

static void end(struct worker *worker)
{
    pthread_join(worker->thread, NULL);
    EXPECT(worker->wrong, 0);
    EXPECT(worker->wrong_in_handler, 0);
    HOLDS(worker->handled > 0);
    close(worker->line);
    close(worker->line_of_handler);
}

static void calling(void)
{
    int before = lowest();

    handle_signal(SIGUSR1, handle, SA_RESTART);
    for (int i = 0; i < THREADS; i++)
        begin(&workers[i]);
    for (int i = 0; i < SIGNALS * THREADS; i++) {
        pthread_kill(workers[i % THREADS].thread, SIGUSR1);
        usleep(300);
    }
    is_over = 1;
    for (int i = 0; i < THREADS; i++)
        end(&workers[i]);
    EXPECT(lowest(), before);
}

/* Sends signals to a thread, each after the last was delivered. */
struct signaller {
    pthread_t thread, to;
    int number, times;
    volatile int taken, is_ready;
};

static struct signaller signaller;

static void *send_signals(void *unused)
{
    for (int i = 0; i < signaller.times; i++) {
        while (signaller.taken < i || !signaller.is_ready)
            usleep(50);
        usleep(200 + 77 * (useconds_t)(i % 16));
        pthread_kill(signaller.to, signaller.number);
    }
    return unused;
}

static void begin_signals(int number, int times)
{
    signaller = (struct signaller){ .to = pthread_self(), .number = number, .times = times };
    EXPECT(pthread_create(&signaller.thread, NULL, send_signals, NULL), 0);
}

static pid_t children[FORKS];
static volatile int is_child;

/* The child continues where its parent was interrupted. */
static void fork_once(int signal)
{
    pid_t child = fork();

    (void)signal;
    is_child |= child == 0;
    if (child > 0)
        children[signaller.taken++] = child;
}

/* Another thread calls meanwhile. */
static void forking(void)
{
    struct worker *other = &workers[0];
    int line = timeline(), wrong = 0;

    is_over = 0;
    handle_signal(SIGUSR2, fork_once, SA_RESTART);
    begin(other);
    begin_signals(SIGUSR2, FORKS);
    signaller.is_ready = 1;
    for (__u32 point = 1; signaller.taken < FORKS && !is_child; point++)
        wrong += play(line, point);
    if (is_child)
        _exit(play(timeline(), 1) || play(timeline(), 1) ? 3 : 0);
    pthread_join(signaller.thread, NULL);
    for (int i = 0; i < FORKS; i++)
        EXPECT(end_of(children[i]), 0);
    is_over = 1;
    pthread_join(other->thread, NULL);
    EXPECT(other->wrong, 0);
    close(line);
}

static sigjmp_buf away;

static void jump(int signal)
{
    (void)signal;
    signaller.taken++;
    siglongjmp(away, 1);
}

/* A call that never returned leaves nothing behind: this thread and another thread can call as before. */
static void jumping(void)
{
    struct worker *other = &workers[0];
    int line = timeline();

    is_over = 0;
    handle_signal(SIGHUP, jump, 0);
    begin(other);
    begin_signals(SIGHUP, JUMPS);
    sigsetjmp(away, 1);
    signaller.is_ready = 1;
    while (signaller.taken < JUMPS) {
        int f = fence(line, 1);
        inc(line, 0);
        close(f);
    }
    pthread_join(signaller.thread, NULL);
    EXPECT(play(timeline(), 1), 0);
    is_over = 1;
    pthread_join(other->thread, NULL);
    EXPECT(other->wrong, 0);
    close(line);
}

/* Looks up sigaction in the C library itself, so that the preloaded library doesn't see its calls. */
static void look_past_preloaded(void)
{
    void *library = dlopen("libc.so.6", RTLD_LAZY | RTLD_NOLOAD), *found = library ? dlsym(library, "sigaction") : NULL;

    HOLDS(found);
    if (found)
        memcpy(&install, &found, sizeof install);
}

#pragma GCC diagnostic ignored "-Wdeprecated-declarations"
static int install_by_sigset(int number, const struct sigaction *action, struct sigaction *before)
{
    (void)before;
    return sigset(number, action->sa_handler) == SIG_ERR ? -1 : 0;
}

int __sigaction(int number, const struct sigaction *action, struct sigaction *before);

int main(int argc, char **argv)
{
    int is_unseen = argc > 1 && !strcmp(argv[1], "unseen");

    give_up_after(60);
    if (is_unseen)
        look_past_preloaded();
    if (argc > 1 && !strcmp(argv[1], "sigset"))
        install = install_by_sigset;
    if (argc > 1 && !strcmp(argv[1], "alias"))
        install = __sigaction;
    calling();
    if (argc == 1)
        jumping();
    if (argc > 1 && !strcmp(argv[1], "forking"))
        forking();
    return report("handlers");
}
