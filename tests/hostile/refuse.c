/* A library to preload: it refuses a program memory and threads.
 *
 * Each malloc, calloc, realloc, posix_memalign, aligned_alloc, mmap and pthread_create of the program is a growth.
 * Growths are numbered from 1, or from the first read on if REFUSE_READING is 1. Growths REFUSE_FIRST to REFUSE_LAST
 * are refused. The file COUNTS holds a struct counts: the number of growths, of refused ones, and of threads that were
 * started and have ended. SIGALRM ends a program that runs longer than SECONDS.
 */
#define _GNU_SOURCE
#include <dlfcn.h>
#include <errno.h>
#include <fcntl.h>
#include <pthread.h>
#include <stdatomic.h>
#include <stdbool.h>
#include <stdlib.h>
#include <sys/mman.h>
#include <sys/syscall.h>
#include <unistd.h>

struct counts {
    atomic_uint growths, refused, started, ended;
};

static struct counts *counts;
static unsigned first, last;
static atomic_bool counting;

extern void *__libc_malloc(size_t);
extern void *__libc_calloc(size_t, size_t);
extern void *__libc_realloc(void *, size_t);
extern void *__libc_memalign(size_t, size_t);

static unsigned number_of(const char *name)
{
    const char *text = getenv(name);
    return text ? (unsigned)strtoul(text, NULL, 10) : 0;
}

__attribute__((constructor)) static void begin(void)
{
    const char *path = getenv("COUNTS");
    int file = path ? open(path, O_RDWR | O_CLOEXEC) : -1;
    if (file < 0)
        abort();
    void *shared = (void *)syscall(SYS_mmap, NULL, sizeof(struct counts), PROT_READ | PROT_WRITE, MAP_SHARED, file, 0);
    if (shared == MAP_FAILED)
        abort();
    close(file);
    alarm(number_of("SECONDS"));
    first = number_of("REFUSE_FIRST");
    last = number_of("REFUSE_LAST");
    counts = shared;
    counting = number_of("REFUSE_READING") == 0;
}

ssize_t read(int file, void *bytes, size_t size)
{
    counting = true;
    return syscall(SYS_read, file, bytes, size);
}

/* Counts a growth, and returns whether it is refused. The loader's growths, before the program, aren't counted. */
static bool is_refused(void)
{
    if (!counting)
        return false;
    unsigned number = atomic_fetch_add(&counts->growths, 1) + 1;
    if (number < first || number > last)
        return false;
    atomic_fetch_add(&counts->refused, 1);
    errno = ENOMEM;
    return true;
}

void *malloc(size_t size)
{
    return is_refused() ? NULL : __libc_malloc(size);
}

void *calloc(size_t count, size_t size)
{
    return is_refused() ? NULL : __libc_calloc(count, size);
}

void *realloc(void *block, size_t size)
{
    return is_refused() ? NULL : __libc_realloc(block, size);
}

void *aligned_alloc(size_t alignment, size_t size)
{
    return is_refused() ? NULL : __libc_memalign(alignment, size);
}

int posix_memalign(void **block, size_t alignment, size_t size)
{
    void *found = is_refused() ? NULL : __libc_memalign(alignment, size);
    if (!found)
        return ENOMEM;
    *block = found;
    return 0;
}

void *mmap(void *place, size_t size, int protection, int flags, int file, off_t offset)
{
    if (is_refused())
        return MAP_FAILED;
    return (void *)syscall(SYS_mmap, place, size, protection, flags, file, offset);
}

struct start {
    void *(*routine)(void *);
    void *argument;
};

static void *counted(void *given)
{
    struct start start = *(struct start *)given;
    free(given);
    void *result = start.routine(start.argument);
    atomic_fetch_add(&counts->ended, 1);
    return result;
}

int pthread_create(pthread_t *thread, const pthread_attr_t *attributes, void *(*routine)(void *), void *argument)
{
    int (*next)(pthread_t *, const pthread_attr_t *, void *(*)(void *), void *) = dlsym(RTLD_NEXT, "pthread_create");
    struct start *start = is_refused() ? NULL : __libc_malloc(sizeof *start);
    if (!start)
        return EAGAIN;
    *start = (struct start){routine, argument};
    int error = next(thread, attributes, counted, start);
    if (error)
        free(start);
    else
        atomic_fetch_add(&counts->started, 1);
    return error;
}
