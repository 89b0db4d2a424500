/* The ioctl(2) calls that the library serves. */
#ifndef BIM_RUN_IOCTLS_H
#define BIM_RUN_IOCTLS_H

#include <linux/dma-buf.h>
#include <linux/dma-heap.h>
#include <linux/ioctl.h>
#include <linux/sync_file.h>
#include <linux/udmabuf.h>
#include <stdint.h>

/* No kernel header declares these for user space. */
struct create_fence {
    uint32_t value;
    char name[32];
    int32_t fence;
};
#define CREATE_FENCE _IOWR('W', 0, struct create_fence)
#define INC          _IOW('W', 1, uint32_t)

/* Older kernel headers lack these. */
struct set_deadline {
    uint64_t deadline_ns, pad;
};
struct sync_file_of_buffer {
    uint32_t flags;
    int32_t fd;
};
#define SET_DEADLINE     _IOW('>', 5, struct set_deadline)
#define EXPORT_SYNC_FILE _IOWR('b', 2, struct sync_file_of_buffer)
#define IMPORT_SYNC_FILE _IOW('b', 3, struct sync_file_of_buffer)

#endif
