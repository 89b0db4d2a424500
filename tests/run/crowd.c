/* usage: crowd [THREADS]
 *
 * Many threads call at once; each gets its turn. */
#include "kernel.h"
#include <limits.h>
#include <pthread.h>

enum { THREADS = 1500, CALLS = 3, STACK = 128 << 10 };

static int line;
static pthread_barrier_t all;

static void *call(void *unused)
{
    long wrong = 0;

    (void)unused;
    pthread_barrier_wait(&all);
    for (int i = 0; i < CALLS; i++)
        wrong += inc(line, 1) != 0;
    return (void *)wrong;
}

int main(int argc, char **argv)
{
    int wanted = argc > 1 ? atoi(argv[1]) : THREADS, count = 0;
    pthread_t *threads = calloc((size_t)wanted, sizeof *threads);
    pthread_attr_t small;
    long wrong = 0;

    give_up_after(30);
    line = timeline();
    pthread_attr_init(&small);
    pthread_attr_setstacksize(&small, STACK);
    EXPECT(pthread_barrier_init(&all, NULL, (unsigned)wanted), 0);
    while (count < wanted && pthread_create(&threads[count], &small, call, NULL) == 0)
        count++;
    EXPECT(count, wanted);
    if (count < wanted)
        return report("crowd");
    for (int i = 0; i < count; i++) {
        void *result;
        pthread_join(threads[i], &result);
        wrong += (long)result;
    }
    EXPECT(wrong, 0);
    int last = fence(line, (__u32)(CALLS * wanted)), next = fence(line, (__u32)(CALLS * wanted) + 1);
    EXPECT(is_signalled(last), 1);
    EXPECT(is_signalled(next), 0);
    close(last);
    close(next);
    close(line);
    pthread_barrier_destroy(&all);
    pthread_attr_destroy(&small);
    free(threads);
    return report("crowd");
}
