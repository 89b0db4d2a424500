/* The ten tests of Linux's tools/testing/selftests/sync, written anew: the lifetimes of a timeline and of a fence,
 * waits, merges, and three tests under load. */
#include "kernel.h"
#include <pthread.h>

enum { WAIT = 10000 };

/* Waits as libsync does: 1 once the file has signalled, 0 after the time, -1 with errno. */
static int wait_for(int file, int milliseconds)
{
    struct pollfd polled = { .fd = file, .events = POLLIN };
    int count = poll(&polled, 1, milliseconds);

    if (count > 0 && polled.revents & (POLLERR | POLLNVAL)) {
        errno = EINVAL;
        return -1;
    }
    return count;
}

/* Waits without a poll, by asking again and again. */
static int ask_for(int file)
{
    int active;

    while ((active = count_with(file, 0)) > 0) {
    }
    return active == 0 && count_with(file, 1) == size(file);
}

static int is_open(int fd)
{
    return fcntl(fd, F_GETFD) >= 0;
}

static void alloc_timeline(void)
{
    int t = timeline();

    HOLDS(is_open(t));
    EXPECT(close(t), 0);
    HOLDS(!is_open(t));
}

static void alloc_fence(void)
{
    int t = timeline(), f = fence(t, 1);

    HOLDS(is_open(t) && is_open(f));
    close(f);
    HOLDS(is_open(t) && !is_open(f));
    close(t);
}

static void alloc_fence_negative(void)
{
    int t = timeline();

    HOLDS(t > 0);
    EXPECT(fence(-1, 1), -1);
    close(t);
    EXPECT(fence(t, 1), -1);
}

static void one_timeline_wait(void)
{
    int t = timeline(), f = fence(t, 5);

    EXPECT(wait_for(f, 0), 0);
    EXPECT(inc(t, 1), 0);
    EXPECT(wait_for(f, 0), 0);
    EXPECT(inc(t, 4), 0);
    EXPECT(wait_for(f, 0), 1);
    EXPECT(inc(t, 10), 0);
    EXPECT(wait_for(f, 0), 1);
    close(f);
    close(t);
}

static void one_timeline_merge(void)
{
    int t = timeline(), a = fence(t, 1), b = fence(t, 2), c = fence(t, 3);
    int ab = merge("ab", b, a), all = merge("all", ab, c);
    int files[] = { a, b, c, ab, all };

    for (int i = 0; i < 5; i++) {
        EXPECT(count_with(files[i], 0), 1);
        EXPECT(wait_for(files[i], 0), 0);
    }
    for (int value = 1; value <= 3; value++) {
        EXPECT(inc(t, 1), 0);
        EXPECT(count_with(a, 1), 1);
        EXPECT(count_with(b, 1), value >= 2);
        EXPECT(count_with(ab, 1), value >= 2);
        EXPECT(count_with(all, 1), value == 3);
    }
    for (int i = 0; i < 5; i++) {
        EXPECT(count_with(files[i], 1), 1);
        close(files[i]);
    }
    close(t);
}

static void merge_same_fence(void)
{
    int t = timeline(), f = fence(t, 5), joined = merge("joined", f, f);

    EXPECT(count_with(joined, 0), 1);
    EXPECT(inc(t, 1), 0);
    EXPECT(count_with(joined, 1), 0);
    EXPECT(inc(t, 4), 0);
    EXPECT(count_with(joined, 1), 1);
    close(joined);
    close(f);
    close(t);
}

static void multi_timeline_wait(void)
{
    enum { COUNT = 3 };
    int timelines[COUNT], files[COUNT], all = -1;

    for (int i = 0; i < COUNT; i++) {
        timelines[i] = timeline();
        files[i] = fence(timelines[i], 5);
    }
    int pair = merge("pair", files[0], files[1]);
    all = merge("all", pair, files[2]);
    EXPECT(count_with(all, 0), COUNT);
    for (int i = 0; i < COUNT; i++) {
        EXPECT(wait_for(all, 0), 0);
        EXPECT(inc(timelines[i], 5), 0);
        EXPECT(count_with(all, 0), COUNT - 1 - i);
        EXPECT(count_with(all, 1), i + 1);
    }
    EXPECT(wait_for(all, 100), 1);
    close(pair);
    close(all);
    for (int i = 0; i < COUNT; i++) {
        close(files[i]);
        close(timelines[i]);
    }
}

enum { STEPS = 1000, PRODUCERS = 5, TURNS = 256 };

struct pair {
    int timeline, me, wrong;
    volatile int *counter;
};

/* Two threads advance one timeline in turns: each waits for its own even or odd points. */
static void *step(void *given)
{
    struct pair *pair = given;

    for (int i = 0; i < STEPS; i++) {
        int point = 2 * i + pair->me, f = fence(pair->timeline, (__u32)point);
        pair->wrong += f < 0 || wait_for(f, WAIT) != 1 || *pair->counter != point;
        ++*pair->counter;
        pair->wrong += inc(pair->timeline, 1) != 0 || close(f) != 0;
    }
    return NULL;
}

static void two_threads_shared_timeline(void)
{
    volatile int counter = 0;
    int t = timeline();
    struct pair pairs[2] = { { .timeline = t, .me = 0, .counter = &counter }, { .timeline = t, .me = 1, .counter = &counter } };
    pthread_t threads[2];

    for (int i = 0; i < 2; i++)
        EXPECT(pthread_create(&threads[i], NULL, step, &pairs[i]), 0);
    for (int i = 0; i < 2; i++) {
        pthread_join(threads[i], NULL);
        EXPECT(pairs[i].wrong, 0);
    }
    EXPECT(counter, 2 * STEPS);
    close(t);
}

static int producers[PRODUCERS], consumer, produced, wrong_producers;
static pthread_mutex_t lock = PTHREAD_MUTEX_INITIALIZER;

/* In the first half of the turns all threads ask in a loop; in the second half they poll. */
static int wait_in_turn(int file, __u32 turn)
{
    return turn < TURNS / 2 ? ask_for(file) : wait_for(file, WAIT);
}

/* Produces one item a turn, once the consumer has reached the turn. */
static void *produce(void *given)
{
    int mine = producers[(intptr_t)given], wrong = 0;

    for (__u32 turn = 0; turn < TURNS; turn++) {
        int f = fence(consumer, turn);
        wrong += f < 0 || wait_in_turn(f, turn) != 1;
        pthread_mutex_lock(&lock);
        produced++;
        pthread_mutex_unlock(&lock);
        wrong += inc(mine, 1) != 0 || close(f) != 0;
    }
    pthread_mutex_lock(&lock);
    wrong_producers += wrong;
    pthread_mutex_unlock(&lock);
    return NULL;
}

/* Makes a fence for the next item of all producers. */
static int all_of_turn(__u32 turn)
{
    int all = fence(producers[0], turn + 1);

    for (int i = 1; i < PRODUCERS; i++) {
        int one = fence(producers[i], turn + 1), more = merge("turn", all, one);
        close(one);
        close(all);
        all = more;
    }
    return all;
}

static void stress_consumer(void)
{
    pthread_t threads[PRODUCERS];
    int wrong = 0;

    consumer = timeline();
    for (int i = 0; i < PRODUCERS; i++)
        producers[i] = timeline();
    for (int i = 0; i < PRODUCERS; i++)
        EXPECT(pthread_create(&threads[i], NULL, produce, (void *)(intptr_t)i), 0);
    for (__u32 turn = 0; turn < TURNS; turn++) {
        int all = all_of_turn(turn);
        wrong += wait_in_turn(all, turn) != 1;
        pthread_mutex_lock(&lock);
        wrong += produced != PRODUCERS * (int)(turn + 1);
        pthread_mutex_unlock(&lock);
        close(all);
        wrong += inc(consumer, 1) != 0;
    }
    for (int i = 0; i < PRODUCERS; i++)
        pthread_join(threads[i], NULL);
    EXPECT(wrong, 0);
    EXPECT(wrong_producers, 0);
    for (int i = 0; i < PRODUCERS; i++)
        close(producers[i]);
    close(consumer);
}

/* Merges fences at random points of many timelines into one: it has the latest point of each, and signals with the
 * last. */
static void stress_merge(void)
{
    enum { COUNT = 32, MERGES = 2048 };
    int timelines[COUNT], touched = 0, wrong = 0;
    __u32 latest[COUNT] = { 0 };

    srand(1234);
    for (int i = 0; i < COUNT; i++)
        timelines[i] = timeline();
    int all = fence(timelines[0], 0);
    for (int i = 0; i < MERGES; i++) {
        int at = rand() % COUNT;
        __u32 point = (__u32)rand() >> 1;
        int one = fence(timelines[at], point), more = merge("all", all, one);
        if (point > latest[at])
            latest[at] = point;
        wrong += one < 0 || more < 0 || close(one) || close(all);
        all = more;
    }
    for (int i = 0; i < COUNT; i++)
        touched += latest[i] > 0;
    EXPECT(wrong, 0);
    EXPECT(size(all), touched);
    for (int i = 0; i < COUNT; i++) {
        EXPECT(wait_for(all, 0), touched == 0);
        touched -= latest[i] > 0;
        EXPECT(inc(timelines[i], latest[i]), 0);
    }
    EXPECT(wait_for(all, 0), 1);
    for (int i = 0; i < COUNT; i++)
        close(timelines[i]);
    close(all);
}

int main(void)
{
    give_up_after(60);
    alloc_timeline();
    alloc_fence();
    alloc_fence_negative();
    one_timeline_wait();
    one_timeline_merge();
    merge_same_fence();
    multi_timeline_wait();
    two_threads_shared_timeline();
    stress_consumer();
    stress_merge();
    return report("selftests");
}
