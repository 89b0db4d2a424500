/* SPDX-License-Identifier: MIT OR Apache-2.0 */
/* libbimphlai: GPU fences without a GPU, for C and C++ programs.
 *
 * Timelines, sync files and the fences of shared buffers, as in Linux's sw_sync, sync_file and dma_resv. There are
 * two interfaces:
 *
 * - a desk names its objects by strings;
 * - a device names its objects by numbers, holds as many as fit into memory, and has the kernel's lifetimes, points and
 *   errors.
 *
 * Both serve one call at a time: threads that share a desk or a device take a lock of their own around each call.
 *
 * Rules for every call:
 *
 * - A call that can be refused returns BIM_OK, or the number of its refusal; a call of a device returns 0, or an errno.
 *   A refused call changes nothing: neither the service nor its out-parameters (but bim_line stores the text of a
 *   refusal). BIM_MEMORY, or ENOMEM, is returned only if no other refusal applies, and the call may be repeated.
 * - A handle is a struct of the caller's. It starts closed, initialised with its BIM_..._INIT, and an open call opens
 *   it. A call is refused with BIM_NO_ENTRY, or EBADF, for a closed handle, and with BIM_EXISTS, or EEXIST, if the
 *   handle to open is open. Copying the struct moves the handle: only one of the copies may be used from then on.
 * - No pointer may be NULL, except a pointer to rows whose room is 0. Memory that a call may change, its handles and
 *   out-parameters, must not overlap its other arguments. Strings that the library returns must not be freed.
 * - No call blocks, sleeps, starts a thread or makes a system call of its own; memory comes from malloc. No call may
 *   be made from a signal handler.
 */
#ifndef BIMPHLAI_H
#define BIMPHLAI_H

#include <stddef.h>
#include <stdint.h>

#ifdef __cplusplus
extern "C" {
#endif

#define BIM_VERSION "0.1.0"

/* Returns the version of the linked library, to compare with BIM_VERSION, the version of this header. */
const char *bim_version(void);

/* Why a call was refused. These numbers are the library's own, not values of errno. */
enum bim_refusal {
    BIM_OK = 0,         /* not refused */
    BIM_SYNTAX = 1,     /* a malformed name: names have 1 to 31 letters, digits, '_', '.' and '-'; an unknown command */
    BIM_NO_ENTRY = 2,   /* no such timeline, file or buffer; a closed handle */
    BIM_EXISTS = 3,     /* the name or cookie exists already; an open handle where the call opens one */
    BIM_OVERFLOW = 4,   /* the value would exceed UINT64_MAX: values don't wrap */
    BIM_FLAGS = 5,      /* a number that is no usage, or invalid flags */
    BIM_LIMIT = 6,      /* a limit is reached */
    BIM_SIGNALLED = 7,  /* the file has signalled already, so it can't be watched */
    BIM_TIMED_OUT = 8,  /* the file is still active */
    BIM_FOREIGN = 9,    /* no call of this library returns it */
    BIM_TORN = 10,      /* nor this */
    BIM_NOT_ALL = 11,   /* nor this */
    BIM_LONG_LINE = 12, /* a line longer than BIM_LINE_BYTES */
    BIM_CANCELLED = 15, /* the timeline is closed */
    BIM_MEMORY = 16     /* malloc has no memory */
};

/* Returns the name of a refusal, such as "NoEntry"; "Ok" for BIM_OK, and "?" for an unknown number. */
const char *bim_refusal_name(int refusal);

/* The usage of a fence in a buffer, from the strongest to the weakest, as enum dma_resv_usage. A query for a usage
 * includes the stronger ones. */
enum bim_usage {
    BIM_KERNEL = 0,
    BIM_WRITE = 1,
    BIM_READ = 2,
    BIM_BOOKKEEP = 3
};

/* The access to a buffer, as DMA_BUF_SYNC_READ, DMA_BUF_SYNC_WRITE and DMA_BUF_SYNC_RW. */
enum bim_sync {
    BIM_SYNC_READ = 1,
    BIM_SYNC_WRITE = 2,
    BIM_SYNC_RW = 3
};

/* The status of a fence or a file, as in struct sync_fence_info. */
enum bim_status {
    BIM_IS_ACTIVE = 0,     /* not reached yet */
    BIM_IS_SIGNALLED = 1,  /* reached */
    BIM_IS_CANCELLED = -2  /* its timeline was closed first: -ENOENT */
};

/* Limits. */
enum {
    BIM_NAME_ROOM = 32,    /* bytes of a name, with its terminating NUL */
    BIM_DRIVER_ROOM = 8,   /* bytes of a driver's name, likewise */
    BIM_CONTEXTS = 256,    /* timelines of a desk, and so fences of a file */
    BIM_BUFFERS = 64,      /* buffers of a desk */
    BIM_FILES = 1024,      /* files of a desk at a time */
    BIM_WATCHES = 4096,    /* watches of a desk at a time */
    BIM_LINE_BYTES = 256,  /* bytes of a line of a script, without its line feed */
    BIM_ANSWER_ROOM = 96   /* the least room for the answer of a line */
};

/* ---- A desk: objects have names -------------------------------------------------------------------------------------
 *
 * Desks are independent of each other.
 *
 * Timelines, files and buffers have separate name spaces. Names are NUL-terminated here; the calls below whose names
 * end with _n take each name as a pointer and a length.
 */
typedef struct bim_desk {
    void *at;
} bim_desk;
#define BIM_DESK_INIT { 0 }

/* Opens an empty desk. Refused with BIM_EXISTS and BIM_MEMORY. */
int bim_desk_open(bim_desk *desk);

/* Closes a desk and frees all its memory. The handle is closed then. Does nothing if the handle is closed. */
void bim_desk_close(bim_desk *desk);

/* Creates a timeline at value 0, and stores its context. Contexts count up from 1. Refused with BIM_SYNTAX, BIM_EXISTS,
 * BIM_LIMIT and BIM_MEMORY. Like libsync's sw_sync_timeline_create. */
int bim_timeline(bim_desk *desk, const char *timeline, uint64_t *context);

/* Adds n to a timeline's value, and stores the new value. Fires the watches of files that this signals; see
 * bim_take_fired. Refused with BIM_SYNTAX, BIM_NO_ENTRY, BIM_CANCELLED, BIM_OVERFLOW and BIM_MEMORY. Like libsync's
 * sw_sync_timeline_inc. */
int bim_inc(bim_desk *desk, const char *timeline, uint64_t n, uint64_t *value);

/* Closes a timeline for good, and stores its value. Points past the value are cancelled, so files with such points are
 * no longer active. The name stays in use. Fires the watches of files that this signals. Refused with BIM_SYNTAX,
 * BIM_NO_ENTRY, BIM_CANCELLED and BIM_MEMORY. Like closing the descriptor of sw_sync. */
int bim_shut(bim_desk *desk, const char *timeline, uint64_t *value);

/* Stores a timeline's value. Refused with BIM_SYNTAX and BIM_NO_ENTRY. */
int bim_value(bim_desk *desk, const char *timeline, uint64_t *value);

/* Creates a file with a point on a timeline. Refused with BIM_SYNTAX, BIM_NO_ENTRY, BIM_EXISTS, BIM_LIMIT,
 * BIM_CANCELLED and BIM_MEMORY. Like libsync's sw_sync_fence_create, SW_SYNC_IOC_CREATE_FENCE. */
int bim_fence(bim_desk *desk, const char *file, const char *timeline, uint64_t point);

/* Creates a file that waits for all that two files wait for: for each timeline, the latest pending point. The two files
 * don't change. Refused with BIM_SYNTAX, BIM_NO_ENTRY, BIM_EXISTS, BIM_LIMIT and BIM_MEMORY. Like libsync's sync_merge,
 * SYNC_IOC_MERGE. */
int bim_merge(bim_desk *desk, const char *file, const char *a, const char *b);

/* Closes a file. Its name can be used again. Refused with BIM_SYNTAX and BIM_NO_ENTRY. Like close(2) on the file's
 * descriptor. */
int bim_close(bim_desk *desk, const char *file);

/* Checks once whether a file is signalled or cancelled: BIM_OK, or BIM_TIMED_OUT while it is active. Refused with
 * BIM_SYNTAX and BIM_NO_ENTRY. Like libsync's sync_wait with a timeout of 0, and poll(2) on a sync file. */
int bim_wait(bim_desk *desk, const char *file);

/* A fence of a file, as struct sync_fence_info. The driver is "sw_sync". A file without fences has one row, with the
 * driver "stub" and the timeline "stub". */
typedef struct bim_fence_info {
    char timeline[BIM_NAME_ROOM];
    uint64_t point;
    char driver[BIM_DRIVER_ROOM];
    int32_t status; /* a bim_status */
} bim_fence_info;

/* Stores a file's status (a bim_status), the number of its fences, and the first `room` fences, in order of their
 * contexts. Rows beyond the last fence aren't written. Refused with BIM_SYNTAX, BIM_NO_ENTRY and BIM_MEMORY. Like
 * libsync's sync_file_info, SYNC_IOC_FILE_INFO. */
int bim_info(bim_desk *desk, const char *file, int32_t *status, bim_fence_info *rows, size_t room, size_t *count);

/* Creates a buffer, which lives as long as its desk. Refused with BIM_SYNTAX, BIM_EXISTS, BIM_LIMIT and BIM_MEMORY.
 * Like a dma-buf's reservation, dma_resv_init. */
int bim_buffer(bim_desk *desk, const char *buffer);

/* Adds a fence to a buffer: a point on a timeline, and its usage (a bim_usage). Refused with BIM_SYNTAX, BIM_FLAGS,
 * BIM_NO_ENTRY and BIM_MEMORY. Like dma_resv_add_fence. */
int bim_add(bim_desk *desk, const char *buffer, const char *timeline, uint64_t point, int usage);

/* Adds a file's fences to a buffer, for the accesses in `flags` (a bim_sync). Refused with BIM_SYNTAX, BIM_NO_ENTRY,
 * BIM_FLAGS and BIM_MEMORY. Like DMA_BUF_IOCTL_IMPORT_SYNC_FILE. */
int bim_import(bim_desk *desk, const char *buffer, const char *file, uint32_t flags);

/* Creates a file with the fences for which an access to a buffer has to wait; `flags` is a bim_sync. Refused with
 * BIM_SYNTAX, BIM_NO_ENTRY, BIM_FLAGS, BIM_EXISTS, BIM_LIMIT and BIM_MEMORY. Like DMA_BUF_IOCTL_EXPORT_SYNC_FILE. */
int bim_export(bim_desk *desk, const char *file, const char *buffer, uint32_t flags);

/* Stores 1 if each fence of a buffer at this usage or a stronger one is signalled or cancelled, else 0. Refused with
 * BIM_SYNTAX, BIM_FLAGS and BIM_NO_ENTRY. Like dma_resv_test_signaled. */
int bim_test(bim_desk *desk, const char *buffer, int usage, int *signalled);

/* Drops a buffer's fences that no access has to wait for any more. No call can observe that. Refused with BIM_SYNTAX
 * and BIM_NO_ENTRY. The kernel does so by itself. */
int bim_trim(bim_desk *desk, const char *buffer);

/* A pending fence of a buffer: the latest point of a timeline at this usage (a bim_usage) or a stronger one. */
typedef struct bim_row {
    int32_t usage;
    char timeline[BIM_NAME_ROOM];
    uint64_t point;
} bim_row;

/* Stores the number of a buffer's pending fences, and the first `room` of them, from the strongest usage and by rising
 * context. Rows beyond the last fence aren't written. Refused with BIM_SYNTAX, BIM_NO_ENTRY and BIM_MEMORY. Like
 * debugfs's dma_buf/bufinfo. */
int bim_show(bim_desk *desk, const char *buffer, bim_row *rows, size_t room, size_t *count);

/* Watches a file: once it is signalled or cancelled, `cookie`, a number of the caller's, fires, even if the file was
 * closed before. Refused with BIM_SYNTAX, BIM_NO_ENTRY, BIM_EXISTS (a watch has the cookie), BIM_LIMIT, BIM_SIGNALLED
 * and BIM_MEMORY. Like dma_fence_add_callback. */
int bim_watch(bim_desk *desk, const char *file, uint64_t cookie);

/* Removes the watch of a cookie, and stores 1; or stores 0 if there was none. Refused only with BIM_NO_ENTRY, when the
 * desk is closed. Like dma_fence_remove_callback. */
int bim_unwatch(bim_desk *desk, uint64_t cookie, int *was_there);

/* Takes the first cookies that have fired and weren't taken yet, at most `room` of them, in order of firing. Returns
 * how many. The others stay for a later call: no cookie is lost. Returns 0 for a closed desk. Doesn't allocate. */
size_t bim_take_fired(bim_desk *desk, uint64_t *cookies, size_t room);

/* A timeline, a file and a buffer in a report. */
typedef struct bim_timeline_row {
    char timeline[BIM_NAME_ROOM];
    uint64_t value;
    int32_t is_closed; /* 1 once bim_shut has closed it, else 0 */
} bim_timeline_row;

typedef struct bim_file_row {
    char file[BIM_NAME_ROOM];
    uint64_t fences; /* as bim_info counts them */
    int32_t status;  /* a bim_status */
} bim_file_row;

typedef struct bim_buffer_row {
    char buffer[BIM_NAME_ROOM];
    uint64_t rows; /* as bim_show counts them */
} bim_buffer_row;

typedef struct bim_counts {
    size_t timelines;
    size_t files;
    size_t buffers;
} bim_counts;

/* Stores how many timelines, files and buffers a desk has, and the first of each that fit: timelines in order of their
 * contexts, files and buffers in order of creation. Rows beyond the last aren't written. Refused with BIM_NO_ENTRY and
 * BIM_MEMORY. Like debugfs's sync/info and dma_buf/bufinfo. */
int bim_report(bim_desk *desk, bim_timeline_row *timelines, size_t timelines_room, bim_file_row *files,
               size_t files_room, bim_buffer_row *buffers, size_t buffers_room, bim_counts *counts);

/* Runs one line of a script, with or without its line feed, and stores the text of the answer as snprintf does:
 * `length` is the length of the whole text, and `out` gets its first room - 1 bytes and a NUL. The text is what
 * `fencectl` prints for this line, such as "ok 5\n" or "err 2 NoEntry\n", and is empty for a note and for a line
 * without words. Returns what the command's own call returns. Returns BIM_SYNTAX or BIM_LONG_LINE for a line that is no
 * command, and for more than one line.
 *
 * Cookies that the line fires are not in the text. They stay for bim_take_fired, as after any other call.
 *
 * No text is lost for want of room. Every text except the answers to `info`, `show` and `report` fits into
 * BIM_ANSWER_ROOM, and a smaller room is refused with BIM_LIMIT. If length >= room, the command was one of these three
 * and has changed nothing, so the call can be repeated with more room. If the room is too small or the desk is closed
 * (BIM_NO_ENTRY), nothing is done or stored. */
int bim_line(bim_desk *desk, const char *line, size_t line_length, char *out, size_t room, size_t *length);

/* The calls above with each name as a pointer and a length, for callers whose strings have no terminating NUL. The rows
 * of bim_info_n, bim_show_n and bim_report_n may not be NULL. */
int bim_timeline_n(bim_desk *desk, const char *timeline, size_t timeline_length, uint64_t *context);
int bim_inc_n(bim_desk *desk, const char *timeline, size_t timeline_length, uint64_t n, uint64_t *value);
int bim_shut_n(bim_desk *desk, const char *timeline, size_t timeline_length, uint64_t *value);
int bim_value_n(bim_desk *desk, const char *timeline, size_t timeline_length, uint64_t *value);
int bim_fence_n(bim_desk *desk, const char *file, size_t file_length, const char *timeline, size_t timeline_length,
                uint64_t point);
int bim_merge_n(bim_desk *desk, const char *file, size_t file_length, const char *a, size_t a_length, const char *b,
                size_t b_length);
int bim_close_n(bim_desk *desk, const char *file, size_t file_length);
int bim_wait_n(bim_desk *desk, const char *file, size_t file_length);
int bim_info_n(bim_desk *desk, const char *file, size_t file_length, int32_t *status, bim_fence_info *rows, size_t room,
               size_t *count);
int bim_buffer_n(bim_desk *desk, const char *buffer, size_t buffer_length);
int bim_add_n(bim_desk *desk, const char *buffer, size_t buffer_length, const char *timeline, size_t timeline_length,
              uint64_t point, int usage);
int bim_import_n(bim_desk *desk, const char *buffer, size_t buffer_length, const char *file, size_t file_length,
                 uint32_t flags);
int bim_export_n(bim_desk *desk, const char *file, size_t file_length, const char *buffer, size_t buffer_length,
                 uint32_t flags);
int bim_test_n(bim_desk *desk, const char *buffer, size_t buffer_length, int usage, int *signalled);
int bim_trim_n(bim_desk *desk, const char *buffer, size_t buffer_length);
int bim_show_n(bim_desk *desk, const char *buffer, size_t buffer_length, bim_row *rows, size_t room, size_t *count);
int bim_watch_n(bim_desk *desk, const char *file, size_t file_length, uint64_t cookie);
int bim_report_n(bim_desk *desk, bim_timeline_row *timelines, size_t timelines_room, bim_file_row *files,
                 size_t files_room, bim_buffer_row *buffers, size_t buffers_room, bim_counts *counts);

/* ---- A device: objects have numbers, as in the kernel ---------------------------------------------------------------
 *
 * Timelines, sync files and buffers have numbers, like descriptors, but numbers rise from 1 and are never reused. Only
 * memory limits how many objects there are, and released objects need none. Points have 32 bits, as in the kernel: a
 * point stands for the 64-bit point with these low bits that is nearest to the timeline's value. Times are nanoseconds
 * of a clock of the caller's.
 *
 * Devices are independent of each other.
 *
 * Every call except bim_device_open fails with EBADF on a closed handle (bim_device_take_woken returns 0). ENOENT says
 * that no object has the number, and ENOTTY that an object of another kind has it.
 */
typedef struct bim_device {
    void *at;
} bim_device;
#define BIM_DEVICE_INIT { 0 }

/* Why a call of a device was refused: the values of <errno.h> on Linux. */
enum bim_errno {
    BIM_ENOENT = 2,     /* no such timeline, file or buffer */
    BIM_EBADF = 9,      /* a closed handle */
    BIM_ENOMEM = 12,    /* malloc has no memory */
    BIM_EEXIST = 17,    /* an open handle where the call opens one */
    BIM_EINVAL = 22,    /* a number that is no usage, or invalid flags; an import of no file */
    BIM_ENOTTY = 25,    /* the object is of another kind */
    BIM_ENOSPC = 28,    /* all numbers are used up: none is reused */
    BIM_EOVERFLOW = 75  /* the value would exceed UINT64_MAX: values don't wrap, their 32-bit points do */
};

/* Opens an empty device. Fails with EEXIST and ENOMEM. */
int bim_device_open(bim_device *device);

/* Closes a device and frees all its memory. The handle is closed then. Does nothing if the handle is closed. */
void bim_device_close(bim_device *device);

/* Creates a timeline at value 0, and stores its number. It is named after the task that opens it, cut at 31 bytes.
 * Fails with ENOSPC and ENOMEM. Like opening sync/sw_sync. */
int bim_device_timeline(bim_device *device, const char *task, uint64_t *timeline);

/* Creates a file with a point on a timeline, and stores the file's number. If the timeline has reached the point, the
 * file is signalled at time `now`. Fails with ENOSPC, ENOENT, ENOTTY, EOVERFLOW and ENOMEM. Like
 * SW_SYNC_IOC_CREATE_FENCE. */
int bim_device_fence(bim_device *device, uint64_t timeline, uint32_t point, uint64_t now, uint64_t *file);

/* What an increment did. */
typedef struct bim_device_raised {
    uint64_t pending; /* the timeline's first point that is still pending, or 0 */
    uint64_t woken;   /* the number of files that this signalled, which bim_device_take_woken gives */
} bim_device_raised;

/* Adds n to a timeline's value: points at or below it are signalled at time `now`. Stores what this did. Fails with
 * ENOENT, ENOTTY, EOVERFLOW and, if it signals a file, ENOMEM. Like SW_SYNC_IOC_INC. */
int bim_device_inc(bim_device *device, uint64_t timeline, uint32_t n, uint64_t now, bim_device_raised *raised);

/* Creates a file that waits for all that two files wait for: for each timeline, the latest pending point. Stores its
 * number. Its name is cut at 31 bytes; without a name it is named after its fences. Fails with ENOSPC, ENOENT, ENOTTY
 * (`a` is of another kind; for `b` that is ENOENT) and ENOMEM. Like SYNC_IOC_MERGE. */
int bim_device_merge(bim_device *device, uint64_t a, uint64_t b, const char *name, uint64_t *file);

/* Stores a file's status (a bim_status): the status of its first fence that is pending or has an error, else
 * BIM_IS_SIGNALLED. Fails with ENOENT and ENOTTY. Like the status of SYNC_IOC_FILE_INFO. */
int bim_device_status(bim_device *device, uint64_t file, int32_t *status);

/* Stores 1 if each fence of a file has signalled, else 0. Fails with ENOENT and ENOTTY. Like poll(2) on a sync file. */
int bim_device_is_signalled(bim_device *device, uint64_t file, int32_t *signalled);

/* A fence of a file, as struct sync_fence_info. A file without fences has one row, with the driver "stub" and the
 * timeline "stub". */
typedef struct bim_device_fence_info {
    char timeline[BIM_NAME_ROOM]; /* the name of the task that opened its timeline */
    uint64_t at;                  /* when it signalled, or 0 */
    char driver[BIM_DRIVER_ROOM]; /* "sw_sync" or "stub" */
    int32_t status;               /* a bim_status */
} bim_device_fence_info;

/* A file, as struct sync_file_info. */
typedef struct bim_device_file_info {
    char name[BIM_NAME_ROOM];
    uint64_t fences; /* the number of its fences */
    int32_t status;  /* as bim_device_status stores it */
} bim_device_file_info;

/* Stores what Linux reports about a file, and its first `room` fences, by rising timeline. Rows beyond the last fence
 * aren't written. Fails with ENOENT, ENOTTY and ENOMEM. Like SYNC_IOC_FILE_INFO. */
int bim_device_info(bim_device *device, uint64_t file, bim_device_file_info *info, bim_device_fence_info *rows,
                    size_t room);

/* Releases a timeline, a file or a buffer. Its number is never reused. Releasing a timeline cancels its pending points
 * at time `now`; bim_device_take_woken gives the files that this signals. Fails with ENOENT and, if it signals a file,
 * ENOMEM. Like close(2) on the last descriptor. */
int bim_device_release(bim_device *device, uint64_t object, uint64_t now);

/* Creates a buffer, and stores its number. Files exported from it while nothing is pending have `now` as their time.
 * Fails with ENOSPC and ENOMEM. Like a dma-buf's reservation, dma_resv_init. */
int bim_device_buffer(bim_device *device, uint64_t now, uint64_t *buffer);

/* Creates a file with the fences for which an access to a buffer has to wait, and stores its number; `flags` is a
 * bim_sync. Fails with ENOSPC, ENOENT, ENOTTY, EINVAL and ENOMEM. Like DMA_BUF_IOCTL_EXPORT_SYNC_FILE. */
int bim_device_export(bim_device *device, uint64_t buffer, uint32_t flags, uint64_t *file);

/* Adds a file's pending fences to a buffer, for the accesses in `flags` (a bim_sync). Fails with ENOENT, ENOTTY, EINVAL
 * (invalid flags, or no such file) and ENOMEM. Like DMA_BUF_IOCTL_IMPORT_SYNC_FILE. */
int bim_device_import(bim_device *device, uint64_t buffer, uint64_t file, uint32_t flags);

/* Stores 1 if each fence of a buffer at this usage (a bim_usage) or a stronger one has signalled, else 0. Fails with
 * EINVAL (the number is no usage; checked first), ENOENT and ENOTTY. Like poll(2) on a dma-buf. */
int bim_device_test(bim_device *device, uint64_t buffer, int usage, int32_t *signalled);

/* Stores a timeline's value. Fails with ENOENT and ENOTTY. Like the value in debugfs's sync/info. */
int bim_device_value(bim_device *device, uint64_t timeline, uint64_t *value);

/* Stores the least point at which an increment of a timeline by n would signal a fence of a file; or 0 if it would
 * signal none, and then the increment ignores its time. With UINT64_MAX, stores the timeline's first pending point,
 * which its release would cancel. Fails with ENOENT and ENOTTY. */
int bim_device_first_due(bim_device *device, uint64_t timeline, uint64_t n, uint64_t *point);

/* A fence of a file: the number of its timeline, and its point. A caller gives a point by 32 bits; this is the 64-bit
 * point that these stand for, to compare with the timeline's value. */
typedef struct bim_device_point {
    uint64_t timeline;
    uint64_t value;
    int32_t is_pending; /* 1, or 0 once it was signalled or cancelled */
} bim_device_point;

/* Stores the fence of a file at `index`, counted from 0 by rising timeline. Fails with ENOENT, ENOTTY and EINVAL (the
 * file has no more fences). */
int bim_device_fence_of(bim_device *device, uint64_t file, size_t index, bim_device_point *point);

/* Takes the first files that have signalled and weren't taken yet, at most `room` of them, in order of the calls that
 * signalled them and by rising number within one call. Returns how many. The others stay for a later call: no file is
 * lost. Released files are left out. Returns 0 for a closed device. Doesn't allocate. */
size_t bim_device_take_woken(bim_device *device, uint64_t *files, size_t room);

/* The calls above with the name as a pointer and a length, for callers whose strings have no terminating NUL. The rows
 * of bim_device_info_n may not be NULL. */
int bim_device_timeline_n(bim_device *device, const char *task, size_t task_length, uint64_t *timeline);
int bim_device_merge_n(bim_device *device, uint64_t a, uint64_t b, const char *name, size_t name_length,
                       uint64_t *file);
int bim_device_info_n(bim_device *device, uint64_t file, bim_device_file_info *info, bim_device_fence_info *rows,
                      size_t room);

#ifdef __cplusplus
}
#endif

#endif
