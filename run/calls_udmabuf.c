/* /dev/udmabuf: dma-bufs made of memory files. Arguments are checked in the order of Linux's driver. */
#define _GNU_SOURCE
#include "calls.h"
#include "parts.h"
#include "shim.h"
#include "step.h"
#include "user.h"

#include <errno.h>
#include <linux/udmabuf.h>
#include <stdlib.h>
#include <string.h>
#include <sys/mman.h>

/* The driver's parameter size_limit_mb. */
enum { MOST_BYTES = 64 << 20 };

/* Returns 0 or EINVAL. */
static int check_sizes(const struct udmabuf_create_item *items, size_t count)
{
    uint64_t page = sysconf(_SC_PAGESIZE), all = 0;

    for (size_t i = 0; i < count; i++) {
        if (items[i].offset % page != 0 || items[i].size % page != 0 || items[i].size > MOST_BYTES - all)
            return EINVAL;
        all += items[i].size;
    }
    return all > 0 ? 0 : EINVAL;
}

/* Returns 0, EBADFD or EINVAL. */
static int check_memory(const struct udmabuf_create_item *items, size_t count)
{
    for (size_t i = 0; i < count; i++) {
        int error = parts_check(items[i].memfd, items[i].offset, items[i].size);

        if (error)
            return error;
    }
    return 0;
}

static int extend(int buffer, const struct udmabuf_create_item *item)
{
    struct bim_request request = { .op = BIM_OP_EXTEND, .size = item->size, .from = item->offset };
    struct bim_answer answer;

    if (shim_mark(buffer, &request.a) != BIM_BUFFER_MARK)
        return EBADF;
    return shim_ask(&request, item->memfd, &answer, NULL);
}

/* Makes a buffer of all items. Returns an errno. */
static int make(const struct udmabuf_create_item *items, size_t count, int *buffer)
{
    struct bim_request request = {
        .op = BIM_OP_BUFFER, .size = items[0].size, .flags = O_RDWR, .from = items[0].offset
    };
    struct bim_answer answer;
    int error = step_ask(STEP_BUFFER, &request, items[0].memfd, &answer, buffer);

    for (size_t i = 1; i < count && !error; i++)
        error = extend(*buffer, &items[i]);
    if (error && *buffer >= 0)
        shim_close(*buffer);
    return error;
}

/* Returns the buffer, or -1 with errno. */
static int create(const struct udmabuf_create_item *items, size_t count, uint32_t flags)
{
    int error = check_sizes(items, count), buffer = -1;

    if (!error)
        error = check_memory(items, count);
    if (!error)
        error = make(items, count, &buffer);
    if (error)
        return shim_result(error);
    if (!(flags & UDMABUF_FLAGS_CLOEXEC))
        syscall(SYS_fcntl, buffer, F_SETFD, 0);
    return buffer;
}

static int create_of_one(const void *arg)
{
    struct udmabuf_create given;
    int error = user_get(&given, arg, sizeof given);
    struct udmabuf_create_item item;

    if (error)
        return shim_result(error);
    item = (struct udmabuf_create_item){ .memfd = given.memfd, .offset = given.offset, .size = given.size };
    return create(&item, 1, given.flags);
}

static int create_of_list(const char *arg)
{
    struct udmabuf_create_list head;
    struct udmabuf_create_item *items;
    int error = user_get(&head, arg, sizeof head), buffer = -1;

    if (!error && (head.count == 0 || head.count > PARTS_MOST))
        error = EINVAL;
    if (error)
        return shim_result(error);
    items = malloc(head.count * sizeof *items);
    error = items ? user_get(items, arg + sizeof head, head.count * sizeof *items) : ENOMEM;
    if (!error)
        buffer = create(items, head.count, head.flags);
    else
        errno = error;
    free(items);
    return buffer;
}

int shim_udmabuf(unsigned long call, const void *arg)
{
    switch (call) {
    case UDMABUF_CREATE: return create_of_one(arg);
    case UDMABUF_CREATE_LIST: return create_of_list(arg);
    default: return shim_result(ENOTTY);
    }
}
