/* The paths by which programs reach fences. */
#ifndef BIM_RUN_PATHS_H
#define BIM_RUN_PATHS_H

#include <stdbool.h>

enum path { NOT_OURS, SW_SYNC, SYNC_INFO, DMA_HEAP, UDMABUF };

/* Classifies the path of a call that the kernel has already answered. */
enum path path_after(const char *path, bool has_failed);
/* Classifies the path of a call that would create a file, and must not create one of ours. */
enum path path_before(const char *path);

#endif
