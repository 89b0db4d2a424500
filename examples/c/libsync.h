/* The calls of the kernel's sync-file selftests, without a kernel: descriptors are small integers of libsync.c, not of
 * the system. Calls that fail return -1 and set errno. Any thread may make them. */
#ifndef LIBSYNC_H
#define LIBSYNC_H

#ifdef __cplusplus
extern "C" {
#endif

/* The status of a fence, as the selftests name it. A fence whose timeline was closed first has -ENOENT, as in the
 * kernel. */
#define FENCE_STATUS_ERROR (-1)
#define FENCE_STATUS_ACTIVE 0
#define FENCE_STATUS_SIGNALED 1

int sw_sync_timeline_create(void);
int sw_sync_timeline_is_valid(int timeline);
int sw_sync_timeline_inc(int timeline, unsigned count);
void sw_sync_timeline_destroy(int timeline); /* its pending fences are signalled with an error */

int sw_sync_fence_create(int timeline, const char *name, unsigned value);
int sw_sync_fence_is_valid(int fence);
void sw_sync_fence_destroy(int fence);

int sync_merge(const char *name, int a, int b);

/* Waits up to `timeout` milliseconds, or without limit if it is negative. Returns 1 once the fence is signalled, else
 * 0. */
int sync_wait(int fence, int timeout);

int sync_fence_size(int fence);
int sync_fence_count_with_status(int fence, int status);

#ifdef __cplusplus
}
#endif

#endif
