/* Programs with a mistake that hardly any run meets: `following NAME` has the mistake, `following NAME right` has not. Each has a
 * schedule in schedules/ that makes it happen. */
#include "kernel.h"
#include <pthread.h>
#include <semaphore.h>

enum { BYTES = 4096, SLOW = 20 };

static int is_right, work, memory;
static sem_t back;

static void start(pthread_t *thread, void *(*run)(void *))
{
    EXPECT(pthread_create(thread, NULL, run, NULL), 0);
}

static void run_both(void *(*first)(void *), void *(*second)(void *))
{
    pthread_t threads[2];

    start(&threads[0], first);
    start(&threads[1], second);
    pthread_join(threads[0], NULL);
    pthread_join(threads[1], NULL);
}

/* A reader gives a buffer back before its access has ended. The other thread then submits work on it. */
static void *read_memory(void *none)
{
    EXPECT(access_buffer(memory, DMA_BUF_SYNC_START | DMA_BUF_SYNC_READ), 0);
    if (!is_right)
        sem_post(&back);
    EXPECT(access_buffer(memory, DMA_BUF_SYNC_END | DMA_BUF_SYNC_READ), 0);
    if (is_right)
        sem_post(&back);
    return none;
}

static void *submit(void *none)
{
    int done;

    sem_wait(&back);
    pause_for(SLOW);
    done = fence(work, 1);
    EXPECT(import(memory, done, DMA_BUF_SYNC_WRITE), 0);
    close(done);
    inc(work, 1);
    return none;
}

static void give_back(void)
{
    run_both(read_memory, submit);
}

/* A thread waits for a fence under a lock that the signalling thread takes. */
static pthread_mutex_t lock = PTHREAD_MUTEX_INITIALIZER;

static void *wait_under_lock(void *none)
{
    int done;

    pause_for(SLOW);
    pthread_mutex_lock(&lock);
    done = fence(work, 1);
    if (is_right)
        pthread_mutex_unlock(&lock);
    EXPECT(ready(done, POLLIN, -1), POLLIN);
    if (!is_right)
        pthread_mutex_unlock(&lock);
    close(done);
    return none;
}

static void *signal_under_lock(void *none)
{
    pthread_mutex_lock(&lock);
    inc(work, 1);
    pthread_mutex_unlock(&lock);
    return none;
}

static void wait_locked(void)
{
    run_both(wait_under_lock, signal_under_lock);
}

/* A process says that a buffer is submitted before the fence of the work is in it. */
static void process_buffer(int says)
{
    int done = fence(work, 1);

    if (!is_right)
        EXPECT(write(says, "", 1), 1);
    EXPECT(import(memory, done, DMA_BUF_SYNC_WRITE), 0);
    if (is_right)
        EXPECT(write(says, "", 1), 1);
    pause_for(SLOW);
    EXPECT(inc(work, 1), 0);
}

static void use_processes(void)
{
    int words[2];
    char word;
    pid_t child;

    EXPECT(pipe(words), 0);
    child = fork();
    if (child == 0) {
        process_buffer(words[1]);
        _exit(failures > 0);
    }
    EXPECT(read(words[0], &word, 1), 1);
    pause_for(SLOW);
    EXPECT(access_buffer(memory, DMA_BUF_SYNC_START | DMA_BUF_SYNC_READ), 0);
    EXPECT(access_buffer(memory, DMA_BUF_SYNC_END | DMA_BUF_SYNC_READ), 0);
    EXPECT(end_of(child), 0);
    close(words[0]);
    close(words[1]);
}

/* A thread makes a fence on a timeline that another replaces, outside of the lock. */
static int current;

static void *make_fence(void *none)
{
    int made;

    pthread_mutex_lock(&lock);
    made = current;
    if (!is_right)
        pthread_mutex_unlock(&lock);
    made = fence(made, 1);
    if (is_right)
        pthread_mutex_unlock(&lock);
    EXPECT(made >= 0, 1);
    close(made);
    return none;
}

static void *replace(void *none)
{
    int old;

    pause_for(5 * SLOW);
    pthread_mutex_lock(&lock);
    old = current;
    current = timeline();
    close(old);
    pthread_mutex_unlock(&lock);
    return none;
}

static void reset(void)
{
    current = timeline();
    run_both(make_fence, replace);
    close(current);
}

/* The orders of atomics are invisible: a right program, and a schedule that it doesn't allow. */
static int is_done;

static void *increment(void *none)
{
    pause_for(SLOW);
    inc(work, 1);
    __atomic_store_n(&is_done, 1, __ATOMIC_SEQ_CST);
    return none;
}

static void *look(void *none)
{
    int done;

    while (!__atomic_load_n(&is_done, __ATOMIC_SEQ_CST))
        pause_for(1);
    done = fence(work, 1);
    EXPECT(status(done), 1);
    close(done);
    return none;
}

static void use_atomics(void)
{
    run_both(increment, look);
}

/* The program looks at a file first, and takes another way if that has signalled. */
static void *choose(void *none)
{
    int done = fence(work, 1), other;

    sem_post(&back);
    pause_for(SLOW);
    other = is_signalled(done) ? merge("both", done, done) : fence(work, 2);
    EXPECT(other >= 0, 1);
    close(done);
    close(other);
    return none;
}

static void *increment_at_once(void *none)
{
    sem_wait(&back);
    inc(work, 1);
    return none;
}

static void branch(void)
{
    run_both(choose, increment_at_once);
}

/* A thread waits for two files at once: one call, and two lines of a schedule. */
static void *wait_for_both(void *none)
{
    struct pollfd files[] = { { fence(work, 1), POLLIN, 0 }, { fence(work, 2), POLLIN, 0 } };

    sem_post(&back);
    while (poll(files, 2, SOON) == 1)
        pause_for(1);
    inc(work, 1);
    close(files[0].fd);
    close(files[1].fd);
    return none;
}

static void *increment_twice(void *none)
{
    sem_wait(&back);
    inc(work, 1);
    inc(work, 1);
    return none;
}

static void wait_at_once(void)
{
    run_both(wait_for_both, increment_twice);
}

static const struct {
    const char *name;
    void (*run)(void);
} PROGRAMS[] = {
    { "give-back", give_back }, { "wait-locked", wait_locked }, { "use-processes", use_processes },
    { "reset", reset },         { "use-atomics", use_atomics }, { "branch", branch },
    { "wait-at-once", wait_at_once },
};

int main(int count, char **words)
{
    const char *name = count > 1 ? words[1] : "";

    is_right = count > 2;
    give_up_after(20);
    sem_init(&back, 0, 0);
    work = timeline();
    memory = buffer(BYTES);
    for (size_t i = 0; i < sizeof PROGRAMS / sizeof PROGRAMS[0]; i++)
        if (strcmp(PROGRAMS[i].name, name) == 0)
            PROGRAMS[i].run();
    close(memory);
    close(work);
    return report("following");
}
