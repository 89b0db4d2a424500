/* Waits of one process on sync files: poll, select and epoll, with and without threads that signal. */
#include "kernel.h"
#include <pthread.h>
#include <signal.h>
#include <sys/epoll.h>
#include <sys/select.h>

enum { LATER = 30 };

struct raise {
    pthread_t thread;
    int timeline;
};

static void *raise_later(void *given)
{
    struct raise *raise = given;

    pause_for(LATER);
    inc(raise->timeline, 1);
    return NULL;
}

/* Starts a thread that increments a timeline by 1 a little later. */
static struct raise *begin(struct raise *raise, int timeline)
{
    raise->timeline = timeline;
    EXPECT(pthread_create(&raise->thread, NULL, raise_later, raise), 0);
    return raise;
}

static void end(struct raise *raise)
{
    pthread_join(raise->thread, NULL);
}

/* Returns the milliseconds since a time. */
static int since(__u64 begun)
{
    return (int)((now() - begun) / 1000000);
}

/* A poll reports POLLIN, if asked for, once the file has signalled, and never anything else. */
static void events_of_polls(void)
{
    static const short asked[] = { 0, POLLIN, POLLOUT, POLLPRI, POLLIN | POLLOUT | POLLPRI, POLLERR | POLLHUP };
    int t = timeline(), f = fence(t, 1), cancelled = fence(t, 9);

    for (int i = 0; i < 6; i++)
        EXPECT(ready(f, asked[i], 0), 0);
    inc(t, 1);
    for (int turn = 0; turn < 2; turn++)
        for (int i = 0; i < 6; i++)
            EXPECT(ready(f, asked[i], 0), asked[i] & POLLIN);
    EXPECT(ready(cancelled, POLLIN, 0), 0);
    close(t);
    for (int i = 0; i < 6; i++) {
        EXPECT(ready(cancelled, asked[i], 0), asked[i] & POLLIN);
        EXPECT(ready(f, asked[i], 0), asked[i] & POLLIN);
    }
    close(cancelled);
    close(f);
    EXPECT(ready(f, POLLIN, 0), POLLNVAL);
}

static void timeouts(void)
{
    int t = timeline(), f = fence(t, 1);
    struct timespec short_time = { .tv_nsec = LATER * 1000000 };
    struct pollfd polled = { .fd = f, .events = POLLIN };
    fd_set set;
    __u64 begun = now();

    EXPECT(ready(f, POLLIN, LATER), 0);
    HOLDS(since(begun) >= LATER);
    begun = now();
    EXPECT(ppoll(&polled, 1, &short_time, NULL), 0);
    HOLDS(since(begun) >= LATER);
    FD_ZERO(&set);
    FD_SET(f, &set);
    begun = now();
    EXPECT(pselect(f + 1, &set, NULL, NULL, &short_time, NULL), 0);
    HOLDS(since(begun) >= LATER);
    HOLDS(!FD_ISSET(f, &set));
    close(f);
    close(t);
}

static void wakes(void)
{
    int t = timeline(), u = timeline(), first = fence(t, 1), second = fence(t, 2), third = fence(t, 3), never = fence(u, 1);
    int both = merge("both", third, first);
    struct pollfd polled[] = { { .fd = never, .events = POLLIN }, { .fd = second, .events = POLLIN } };
    struct timeval longest = { .tv_sec = SOON / 1000 };
    struct raise raise;
    fd_set set;

    begin(&raise, t);
    EXPECT(ready(first, POLLIN, SOON), POLLIN);
    end(&raise);
    begin(&raise, t);
    EXPECT(poll(polled, 2, SOON), 1);
    EXPECT(polled[0].revents, 0);
    EXPECT(polled[1].revents, POLLIN);
    end(&raise);
    FD_ZERO(&set);
    FD_SET(both, &set);
    FD_SET(never, &set);
    begin(&raise, t);
    EXPECT(select((both > never ? both : never) + 1, &set, NULL, NULL, &longest), 1);
    HOLDS(FD_ISSET(both, &set) && !FD_ISSET(never, &set));
    end(&raise);
    int files[] = { t, u, first, second, third, never, both };
    for (int i = 0; i < 7; i++)
        close(files[i]);
}

/* Adds a file to an epoll set. Returns 0 or -1. */
static int add(int group, int file, unsigned events)
{
    struct epoll_event event = { .events = events, .data = { .fd = file } };

    return epoll_ctl(group, EPOLL_CTL_ADD, file, &event);
}

static void epolls(void)
{
    int t = timeline(), group = epoll_create1(EPOLL_CLOEXEC), level = fence(t, 1), edge = fence(t, 1), once = fence(t, 1);
    struct epoll_event events[4];
    struct raise raise;

    EXPECT(add(group, level, EPOLLIN), 0);
    EXPECT(epoll_wait(group, events, 4, 0), 0);
    begin(&raise, t);
    EXPECT(epoll_wait(group, events, 4, SOON), 1);
    EXPECT(events[0].data.fd, level);
    EXPECT(events[0].events, EPOLLIN);
    end(&raise);
    EXPECT(add(group, edge, EPOLLIN | EPOLLET), 0);
    EXPECT(add(group, once, EPOLLIN | EPOLLONESHOT), 0);
    EXPECT(epoll_wait(group, events, 4, 0), 3);
    EXPECT(epoll_wait(group, events, 4, 0), 1);
    EXPECT(events[0].data.fd, level);
    /* A file leaves the set with its last descriptor. */
    close(level);
    EXPECT(epoll_wait(group, events, 4, 0), 0);
    close(edge);
    close(once);
    close(group);
    close(t);
}

/* An epoll set reports a file that the closing of its timeline signals. */
static void epoll_of_closed(void)
{
    int t = timeline(), group = epoll_create1(EPOLL_CLOEXEC), f = fence(t, 1), late = fence(t, 2);
    struct epoll_event event;

    EXPECT(add(group, f, EPOLLIN | EPOLLET), 0);
    close(t);
    EXPECT(epoll_wait(group, &event, 1, 0), 1);
    EXPECT(event.events, EPOLLIN);
    EXPECT(epoll_wait(group, &event, 1, 0), 0);
    EXPECT(ready(late, POLLIN, 0), POLLIN);
    close(late);
    close(f);
    close(group);
}

static void note(int signal)
{
    (void)signal;
}

static volatile int was_interrupted;

/* Sends signals until one arrives during the wait. */
static void *interrupt_later(void *given)
{
    while (!was_interrupted) {
        pause_for(LATER);
        pthread_kill(*(pthread_t *)given, SIGUSR1);
    }
    return NULL;
}

/* A signal to the thread ends a wait with EINTR. */
static void interrupted(void)
{
    struct sigaction action = { .sa_handler = note };
    int t = timeline(), f = fence(t, 1);
    struct pollfd polled = { .fd = f, .events = POLLIN };
    pthread_t me = pthread_self(), thread;

    sigaction(SIGUSR1, &action, NULL);
    EXPECT(pthread_create(&thread, NULL, interrupt_later, &me), 0);
    FAILS(poll(&polled, 1, SOON), EINTR);
    was_interrupted = 1;
    pthread_join(thread, NULL);
    EXPECT(is_signalled(f), 0);
    inc(t, 1);
    EXPECT(is_signalled(f), 1);
    close(f);
    close(t);
}

/* A timeline has no poll operation, so it is always readable, and an epoll set refuses it. */
static void timelines(void)
{
    int t = timeline(), f = fence(t, 1), group = epoll_create1(EPOLL_CLOEXEC);
    struct epoll_event event = { .events = EPOLLIN };
    fd_set readable;

    for (int i = 0; i < 2; i++) {
        EXPECT(ready(t, POLLIN, 0), POLLIN);
        EXPECT(ready(t, 0, 0), 0);
        FD_ZERO(&readable);
        FD_SET(t, &readable);
        EXPECT(select(t + 1, &readable, NULL, NULL, &(struct timeval){ 0 }), 1);
        FAILS(epoll_ctl(group, EPOLL_CTL_ADD, t, &event), EPERM);
        EXPECT(is_signalled(f), i);
        inc(t, 1);
    }
    EXPECT(epoll_ctl(group, EPOLL_CTL_ADD, f, &event), 0);
    close(group);
    close(f);
    close(t);
}

enum { SIGNALS = 60 };

static int handled_timeline;
static volatile int handled, refused, is_over;

static void raise_one(int signal)
{
    (void)signal;
    if (inc(handled_timeline, 1) == 0)
        handled++;
    else
        refused++;
}

static void *signal_often(void *given)
{
    for (int i = 0; i < SIGNALS; i++) {
        pthread_kill(*(pthread_t *)given, SIGUSR1);
        pause_for(1);
    }
    is_over = 1;
    return NULL;
}

/* A signal handler calls while its thread may be in a call itself. */
static void in_handlers(void)
{
    struct sigaction action = { .sa_handler = raise_one, .sa_flags = SA_RESTART };
    int other = timeline(), wrong = 0;
    pthread_t me = pthread_self(), thread;

    handled_timeline = timeline();
    sigaction(SIGUSR1, &action, NULL);
    EXPECT(pthread_create(&thread, NULL, signal_often, &me), 0);
    for (__u32 i = 1; !is_over; i++) {
        int f = fence(other, i), both = merge("both", f, f);
        wrong += f < 0 || both < 0 || inc(other, 1) || !is_signalled(both) || status(f) != 1 || close(f) || close(both);
    }
    pthread_join(thread, NULL);
    EXPECT(wrong, 0);
    EXPECT(refused, 0);
    HOLDS(handled > 0);
    int last = fence(handled_timeline, (__u32)handled), next = fence(handled_timeline, (__u32)handled + 1);
    EXPECT(is_signalled(last), 1);
    EXPECT(is_signalled(next), 0);
    int files[] = { last, next, other, handled_timeline };
    for (int i = 0; i < 4; i++)
        close(files[i]);
}

enum { THREADS = 8, ROUNDS = 60 };

static int shared[THREADS], wrong[THREADS];

/* Each thread advances its own timeline, waits for the next thread's, and merges both. */
static void *take_turns(void *given)
{
    int me = (int)(intptr_t)given, next = (me + 1) % THREADS;

    for (__u32 round = 1; round <= ROUNDS; round++) {
        int mine = fence(shared[me], round), other = fence(shared[next], round), both = merge("both", mine, other);
        wrong[me] += mine < 0 || other < 0 || both < 0 || inc(shared[me], 1) || ready(both, POLLIN, SOON) != POLLIN;
        wrong[me] += status(both) != 1 || close(mine) || close(other) || close(both);
    }
    return NULL;
}

static void threads(void)
{
    pthread_t running[THREADS];
    int before = lowest();

    for (int i = 0; i < THREADS; i++)
        shared[i] = timeline();
    for (int i = 0; i < THREADS; i++)
        EXPECT(pthread_create(&running[i], NULL, take_turns, (void *)(intptr_t)i), 0);
    for (int i = 0; i < THREADS; i++) {
        pthread_join(running[i], NULL);
        EXPECT(wrong[i], 0);
    }
    for (int i = 0; i < THREADS; i++)
        close(shared[i]);
    EXPECT(lowest(), before);
}

int main(void)
{
    give_up_after(40);
    events_of_polls();
    timeouts();
    wakes();
    epolls();
    epoll_of_closed();
    timelines();
    interrupted();
    in_handlers();
    threads();
    return report("polls");
}
