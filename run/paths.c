#define _GNU_SOURCE
#include "paths.h"

#include "shim.h"
#include "user.h"

#include <errno.h>
#include <string.h>

enum { PATH_ROOM = 64 };

/* The path is readable, since the kernel has read it, or it is a copy. A call that names a file by its descriptor may
 * have no path. */
static enum path path_of(const char *path)
{
    if (!shim_is_on() || !path || path[0] != '/')
        return NOT_OURS;
    if (strcmp(path, "/sys/kernel/debug/sync/sw_sync") == 0 || strcmp(path, "/dev/sw_sync") == 0)
        return SW_SYNC;
    if (strcmp(path, "/sys/kernel/debug/sync/info") == 0)
        return SYNC_INFO;
    if (strcmp(path, "/dev/udmabuf") == 0)
        return UDMABUF;
    return strcmp(path, "/dev/dma_heap/system") == 0 ? DMA_HEAP : NOT_OURS;
}

enum path path_after(const char *path, bool has_failed)
{
    return has_failed && errno == EFAULT ? NOT_OURS : path_of(path);
}

enum path path_before(const char *path)
{
    char copy[PATH_ROOM];

    return shim_is_on() && user_get_text(copy, path, sizeof copy) == 0 ? path_of(copy) : NOT_OURS;
}
