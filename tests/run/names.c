/* Threads and processes that are made in each way. Each increments a timeline once, and schedules/names.fence names them all, in an
 * order in which no run makes them by itself. */
#include "kernel.h"
#include <pthread.h>
#include <spawn.h>
#include <stdio.h>
#include <threads.h>

extern char **environ;

static const char *self;
static char counted[16];
static int counts;

static void count(void)
{
    EXPECT(inc(counts, 1), 0);
}

static int end_child(void)
{
    count();
    _exit(failures > 0);
}

static char *const *words_of_another(void)
{
    static char program[4096], word[] = "another";
    static char *const words[] = { program, word, counted, NULL };

    snprintf(program, sizeof program, "%s", self);
    return words;
}

static int become_another(void)
{
    execv(self, words_of_another());
    _exit(1);
}

/* 1.1.1 */
static int run_c11(void *none)
{
    (void)none;
    count();
    return 7;
}

/* 1.1, which forks 1.1.2 */
static void *run_maker(void *none)
{
    thrd_t thread;
    pid_t child;
    int result = 0;

    EXPECT(thrd_create(&thread, run_c11, NULL), thrd_success);
    child = fork();
    if (child == 0)
        end_child();
    EXPECT(end_of(child), 0);
    EXPECT(thrd_join(thread, &result), thrd_success);
    EXPECT(result, 7);
    count();
    return none;
}

/* 1.2.1 */
static void *run_in_child(void *none)
{
    count();
    return none;
}

/* 1.2 */
static void be_child(void)
{
    pthread_t thread;

    EXPECT(pthread_create(&thread, NULL, run_in_child, NULL), 0);
    count();
    pthread_join(thread, NULL);
    _exit(failures > 0);
}

/* 1.3 */
static pid_t spawned(void)
{
    pid_t child = -1;

    EXPECT(posix_spawn(&child, self, NULL, NULL, words_of_another(), environ), 0);
    return child;
}

/* 1.5 */
static void *run_to_exit(void *none)
{
    count();
    pthread_exit(none);
}

/* 1.6 and 1.7 get their names when they load the library, so nothing else is made meanwhile. */
static void run_unseen(void)
{
    char command[4200];
    pid_t child = vfork();

    if (child == 0)
        become_another();
    EXPECT(end_of(child), 0);
    snprintf(command, sizeof command, "exec '%s' another %s", self, counted);
    EXPECT(system(command), 0);
}

static void run_all(void)
{
    struct timespec until;
    pthread_t maker, exiting;
    pid_t children[3];

    EXPECT(pthread_create(&maker, NULL, run_maker, NULL), 0);
    children[0] = fork();
    if (children[0] == 0)
        be_child();
    children[1] = spawned();
    children[2] = fork();
    if (children[2] == 0) {
        count();
        become_another();
    }
    EXPECT(pthread_create(&exiting, NULL, run_to_exit, NULL), 0);
    run_unseen();
    for (int i = 0; i < 3; i++)
        EXPECT(end_of(children[i]), 0);
    clock_gettime(CLOCK_REALTIME, &until);
    until.tv_sec += SOON;
    EXPECT(pthread_timedjoin_np(exiting, NULL, &until), 0);
    pthread_join(maker, NULL);
}

int main(int words, char **word)
{
    give_up_after(20);
    self = word[0];
    if (words > 2) {
        counts = atoi(word[2]);
        count();
        return failures > 0;
    }
    counts = timeline();
    snprintf(counted, sizeof counted, "%d", counts);
    run_all();
    close(counts);
    return report("names");
}
