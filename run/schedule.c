#define _GNU_SOURCE
#include "schedule.h"

#include "calls.h"

#include <errno.h>
#include <limits.h>
#include <linux/futex.h>
#include <sys/mman.h>
#include <time.h>

size_t schedule_size(const struct schedule *schedule)
{
    return sizeof *schedule + ((size_t)schedule->turns + schedule->others) * sizeof schedule->all[0];
}

int schedule_make(const char *path, const struct schedule *schedule)
{
    size_t size = schedule_size(schedule);
    int file = open(path, O_WRONLY | O_CREAT | O_EXCL | O_CLOEXEC, 0600);
    ssize_t written = file < 0 ? -1 : call_write(file, schedule, size);
    int error = written < 0 ? errno : (size_t)written < size ? ENOSPC : 0;

    if (file >= 0)
        call_close(file);
    return error;
}

struct schedule *schedule_open(const char *path)
{
    int file = syscall(SYS_openat, AT_FDCWD, path, O_RDWR | O_CLOEXEC, 0);
    void *memory = MAP_FAILED;
    struct stat found;

    if (file < 0)
        return NULL;
    if (call_fstat(file, &found) == 0)
        memory = mmap(NULL, found.st_size, PROT_READ | PROT_WRITE, MAP_SHARED, file, 0);
    call_close(file);
    return memory == MAP_FAILED ? NULL : memory;
}

void schedule_end(struct schedule *schedule, enum outcome outcome, const struct turn *other)
{
    uint32_t runs = SCHEDULE_RUNS;

    if (!atomic_compare_exchange_strong(&schedule->outcome, &runs, outcome))
        return;
    if (other)
        schedule->other = *other;
    syscall(SYS_futex, &schedule->at, FUTEX_WAKE, INT_MAX, NULL, NULL, 0);
}

uint64_t schedule_now(void)
{
    struct timespec now;

    clock_gettime(CLOCK_MONOTONIC, &now);
    return (uint64_t)now.tv_sec * 1000000000 + now.tv_nsec;
}
