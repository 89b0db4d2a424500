#define _GNU_SOURCE
#include "log.h"

#include "calls.h"

#include <errno.h>
#include <fcntl.h>
#include <stdatomic.h>
#include <string.h>
#include <sys/mman.h>
#include <time.h>

static struct log *opened;

/* A call more than the plan's may have been recorded before an earlier one. */
enum { SPARE_CALLS = 1000 };

int log_make(const char *path, uint64_t most_calls)
{
    int file = open(path, O_RDWR | O_CREAT | O_EXCL | O_CLOEXEC, 0600), error;

    if (file < 0)
        return errno;
    /* A program must not end by SIGBUS where the file system is full. */
    error = posix_fallocate(file, 0, sizeof *opened);
    call_close(file);
    if (!error)
        error = log_open(path);
    if (!error)
        opened->most_calls = most_calls;
    return error;
}

int log_open(const char *path)
{
    int file = syscall(SYS_openat, AT_FDCWD, path, O_RDWR | O_CLOEXEC, 0);
    struct log *log;

    if (file < 0)
        return errno;
    log = mmap(NULL, sizeof *log, PROT_READ | PROT_WRITE, MAP_SHARED, file, 0);
    call_close(file);
    if (log == MAP_FAILED)
        return errno;
    opened = log;
    return 0;
}

struct log *log_opened(void)
{
    return opened;
}

uint64_t log_now(void)
{
    struct timespec now;

    clock_gettime(CLOCK_MONOTONIC, &now);
    return (uint64_t)now.tv_sec * 1000000000u + (uint64_t)now.tv_nsec;
}

static bool is_over(void)
{
    return atomic_load_explicit(&opened->calls, memory_order_relaxed) >= opened->most_calls + SPARE_CALLS;
}

void log_add(const struct log_record *record)
{
    struct log_record *to;
    uint64_t at;

    if (!opened || is_over())
        return;
    at = atomic_fetch_add_explicit(&opened->records, 1, memory_order_relaxed);
    if (at >= LOG_ROOM)
        return;
    to = &opened->all[at];
    to->time = record->time;
    to->thread = record->thread;
    to->flags = record->flags;
    to->call = record->call;
    to->result = record->result;
    memcpy(to->object, record->object, sizeof to->object + sizeof to->value + sizeof to->frames);
    atomic_store_explicit(&to->kind, record->kind, memory_order_release);
}
