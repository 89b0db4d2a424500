/* mmap(2) of a buffer: maps its memory files, since the socket that represents the buffer can't be mapped. If the memory
 * has several parts, each is mapped at its offset in the whole. */
#define _GNU_SOURCE
#include "calls.h"
#include "shim.h"

#include <errno.h>
#include <sys/mman.h>

/* A call of mmap(2) on a buffer. */
struct map {
    uint64_t buffer, from;
    void *at;
    size_t length;
    int protection, flags;
};

static char *map_memory(void *at, size_t length, int protection, int flags, int memory, uint64_t from)
{
    return (char *)syscall(SYS_mmap, at, length, protection, flags, memory, from);
}

/* Reserves address space for the whole buffer, which the mappings of the parts then replace. */
static char *reserve(const struct map *map)
{
    int flags = (map->flags & ~(MAP_TYPE | MAP_POPULATE)) | MAP_PRIVATE | MAP_ANONYMOUS | MAP_NORESERVE;

    return map_memory(map->at, map->length, PROT_NONE, flags, -1, 0);
}

/* Maps the intersection of a part and the range. The part begins at offset `start` of the buffer. */
static int map_part(const struct map *map, char *whole, uint64_t start, const struct bim_answer *part, int memory)
{
    uint64_t end = start + part->length, last = map->from + map->length;
    uint64_t from = start > map->from ? start : map->from, to = end < last ? end : last;
    int flags = (map->flags & ~MAP_FIXED_NOREPLACE) | MAP_FIXED;
    char *mapped;

    if (from >= to)
        return 0;
    mapped = map_memory(whole + (from - map->from), to - from, map->protection, flags, memory,
                        part->from + (from - start));
    return mapped == MAP_FAILED ? errno : 0;
}

/* Returns 0 or an errno. */
static int map_all(const struct map *map, char *whole)
{
    struct bim_request request = { .op = BIM_OP_MEMORY, .a = map->buffer };
    struct bim_answer part = { .parts = 1 };
    uint64_t start = 0;
    int error = 0, memory;

    for (; request.value < part.parts && !error; request.value++) {
        error = shim_ask(&request, -1, &part, &memory);
        if (error)
            break;
        error = map_part(map, whole, start, &part, memory);
        call_close(memory);
        start += part.length;
    }
    return error;
}

/* Maps a buffer for whose first part the service has answered. */
static void *map_parts(const struct map *map, const struct bim_answer *first, int memory)
{
    char *whole;
    int error;

    if (first->parts == 1)
        return map_memory(map->at, map->length, map->protection, map->flags, memory, first->from + map->from);
    whole = reserve(map);
    error = whole == MAP_FAILED ? errno : map_all(map, whole);
    if (!error)
        return whole;
    if (whole != MAP_FAILED)
        munmap(whole, map->length);
    errno = error;
    return MAP_FAILED;
}

/* Returns the kernel's error for a mapping, or 0. A heap's driver maps page by page, which fails for a private copy of
 * several pages. */
static int refusal_of_map(const struct bim_answer *buffer, const struct map *map)
{
    bool is_private = (map->flags & MAP_TYPE) == MAP_PRIVATE;

    if (buffer->flags != O_RDONLY && buffer->flags != O_RDWR)
        return EACCES;
    if (map->protection & PROT_WRITE && !is_private && buffer->flags == O_RDONLY)
        return EACCES;
    if (map->length > buffer->size || map->from > buffer->size - map->length)
        return EINVAL;
    return is_private && (buffer->is_lent || map->length > (size_t)sysconf(_SC_PAGESIZE)) ? EINVAL : 0;
}

static void *map_file(const struct map *map, int file)
{
    struct bim_answer buffer;
    void *mapped = MAP_FAILED;
    int memory = -1, error = shim_memory(file, 0, &buffer, &memory);

    if (!error)
        error = refusal_of_map(&buffer, map);
    if (!error)
        mapped = map_parts(map, &buffer, memory);
    else
        errno = error;
    if (memory >= 0)
        call_close(memory);
    return mapped;
}

static void *map_buffer(void *at, size_t length, int protection, int flags, int file, off_t from)
{
    struct map whole = {
        .from = from, .at = at, .length = length, .protection = protection, .flags = flags
    };

    return shim_mark(file, &whole.buffer) == BIM_BUFFER_MARK ? map_file(&whole, file) : MAP_FAILED;
}

static void *refused_map(void)
{
    errno = ENODEV;
    return MAP_FAILED;
}

#define MMAP(name)                                                                                  \
    EXPORT void *name(void *at, size_t length, int protection, int flags, int file, off_t from)     \
    {                                                                                               \
        NEXT(name);                                                                                 \
        bool is_device = !(flags & MAP_ANONYMOUS) && shim_is_device(file);                          \
        void *mapped = is_device ? refused_map() : next(at, length, protection, flags, file, from); \
                                                                                                    \
        if (mapped != MAP_FAILED || errno != ENODEV || flags & MAP_ANONYMOUS)                       \
            return mapped;                                                                          \
        return map_buffer(at, length, protection, flags, file, from);                               \
    }

MMAP(mmap)
MMAP(mmap64)
