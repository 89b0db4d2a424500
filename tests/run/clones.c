/* Children made by clone or vfork without the C library, or of a parent whose fork handlers call the service. */
#include "kernel.h"
#include <pthread.h>
#include <signal.h>
#include <sys/syscall.h>

enum { CHILDREN = 3, ROUNDS = 1000, FORKS = 10 };

static int line, wrong;

static int play(int rounds)
{
    int t = timeline(), went_wrong = t < 0;

    for (__u32 point = 1; point <= (__u32)rounds; point++) {
        int f = fence(t, point), both = merge("both", f, f);
        went_wrong += f < 0 || both < 0 || status(f) != 0 || inc(t, 1) || status(both) != 1 || !is_signalled(f);
        went_wrong += close(f) || close(both);
    }
    return went_wrong || close(t);
}

/* Neither child nor parent gets the answer to a request of the other. */
static void by_system_calls(void)
{
    pid_t children[CHILDREN];

    HOLDS(play(1) == 0);
    for (int i = 0; i < CHILDREN; i++) {
        children[i] = (pid_t)syscall(SYS_clone, SIGCHLD, 0, 0, 0, 0);
        if (children[i] == 0)
            syscall(SYS_exit_group, play(ROUNDS));
    }
    EXPECT(play(ROUNDS), 0);
    for (int i = 0; i < CHILDREN; i++)
        EXPECT(end_of(children[i]), 0);
}

static void by_vfork(void)
{
    int t = timeline(), f = fence(t, 1);
    pid_t child = vfork();

    if (child == 0)
        _exit(inc(t, 1) || close(t));
    EXPECT(end_of(child), 0);
    EXPECT(status(f), 1);
    EXPECT(inc(t, 1), 0);
    close(f);
    close(t);
}

static void call_before(void)
{
    wrong += line > 0 && inc(line, 1) != 0;
}

static void call_in_child(void)
{
    wrong += play(2);
}

/* Runs before all constructors, so that its handlers run last before a fork, and first after it. */
static void begin_early(void)
{
    pthread_atfork(call_before, call_before, call_in_child);
}

__attribute__((section(".preinit_array"), used)) static void (*const early)(void) = begin_early;

static void *wait_for_end(void *file)
{
    return (void *)(intptr_t)(ready(*(int *)file, POLLIN, -1) != POLLIN);
}

/* With a second thread, calls take a lock. */
static void with_handlers(void)
{
    int f;
    pthread_t thread;

    line = timeline();
    f = fence(line, 2 * FORKS);
    EXPECT(pthread_create(&thread, NULL, wait_for_end, &f), 0);
    for (int i = 0; i < FORKS; i++) {
        pid_t child = fork();
        if (child == 0)
            _exit(wrong || play(2));
        EXPECT(end_of(child), 0);
        EXPECT(status(f), i == FORKS - 1);
    }
    EXPECT(wrong, 0);
    pthread_join(thread, NULL);
    close(f);
    close(line);
}

int main(void)
{
    give_up_after(40);
    by_system_calls();
    by_vfork();
    with_handlers();
    return report("clones");
}
