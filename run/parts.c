#define _GNU_SOURCE
#include "parts.h"

#include "calls.h"

#include <errno.h>
#include <linux/magic.h>
#include <stdlib.h>
#include <sys/vfs.h>

/* Headers older than Linux 5.1 lack this seal. */
#ifndef F_SEAL_FUTURE_WRITE
#define F_SEAL_FUTURE_WRITE 0x0010
#endif

enum { SEALS_WANTED = F_SEAL_SHRINK, SEALS_DENIED = F_SEAL_WRITE | F_SEAL_FUTURE_WRITE };

/* One bit for each descriptor number, set if a part has that descriptor. Few processes have more descriptors. */
enum { NUMBERS = 65536, BITS = 64 };
static _Atomic uint64_t held[NUMBERS / BITS];

static void note(int memory, bool is_held)
{
    uint64_t bit = (uint64_t)1 << memory % BITS;

    if (memory >= NUMBERS)
        return;
    if (is_held)
        held[memory / BITS] |= bit;
    else
        held[memory / BITS] &= ~bit;
}

bool parts_hold(int file)
{
    return file >= 0 && file < NUMBERS && held[file / BITS] >> file % BITS & 1;
}

/* The kernel takes single pages of huge pages, which can't be mapped one by one. */
static bool has_huge_pages(int memory)
{
    struct statfs found;

    return syscall(SYS_fstatfs, memory, &found) == 0 && found.f_type == HUGETLBFS_MAGIC;
}

/* Returns whether the bytes are within the file. The kernel accepts a last page that the file fills only in part. */
static bool is_within(int memory, uint64_t from, uint64_t size)
{
    uint64_t page = sysconf(_SC_PAGESIZE), pages;
    struct stat found;

    if (call_fstat(memory, &found))
        return false;
    pages = ((uint64_t)found.st_size + page - 1) / page;
    return from / page <= pages && size / page <= pages - from / page;
}

int parts_check(int memory, uint64_t from, uint64_t size)
{
    int seals = syscall(SYS_fcntl, memory, F_GET_SEALS);

    if (seals < 0)
        return EBADFD;
    if ((seals & SEALS_WANTED) != SEALS_WANTED || seals & SEALS_DENIED)
        return EINVAL;
    return has_huge_pages(memory) || !is_within(memory, from, size) ? EINVAL : 0;
}

int parts_add(struct parts *parts, int memory, uint64_t from, uint64_t size)
{
    struct part *more = realloc(parts->at, (parts->count + 1) * sizeof *more);

    if (!more)
        return ENOMEM;
    more[parts->count] = (struct part){ memory, from, size };
    parts->at = more;
    parts->count++;
    note(memory, true);
    return 0;
}

void parts_place(struct parts *parts, int (*place)(int file))
{
    for (size_t i = 0; i < parts->count; i++) {
        note(parts->at[i].memory, false);
        parts->at[i].memory = place(parts->at[i].memory);
        note(parts->at[i].memory, true);
    }
}

void parts_close(struct parts *parts)
{
    for (size_t i = 0; i < parts->count; i++) {
        note(parts->at[i].memory, false);
        call_close(parts->at[i].memory);
    }
    free(parts->at);
    *parts = (struct parts){ NULL, 0 };
}
