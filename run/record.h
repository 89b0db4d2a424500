/* State of the trace and of sync/info that the device doesn't have: which files share a fence, and what a process
 * leaves when it ends. The device decides which points files wait for, and which of them a call signals. */
#ifndef BIM_RUN_RECORD_H
#define BIM_RUN_RECORD_H

#include "trace.h"
#include "wire.h"

#include <bimphlai.h>
#include <stdbool.h>
#include <stddef.h>
#include <stdint.h>

/* A timeline. It outlives its closing while any of its fences exists. */
struct timeline {
    struct timelines *all;
    struct timeline *before, *after; /* in the list of all timelines, in order of creation */
    char name[BIM_TEXT_ROOM];
    uint64_t number;
    struct fence *first, *last; /* pending or cancelled fences, by rising value */
    size_t fences;              /* number of these fences and of signalled ones that still exist */
    bool is_closed;
    uint64_t value; /* the value at which it was closed */
    bool ends_with_process;
};

struct timelines {
    struct timeline *first, *last;
};

enum fence_state { PENDING, SIGNALLED, CANCELLED };

/* A fence: shared by all files of its point while the point is pending; or the array that represents several fences. */
struct fence {
    struct fence *before, *next; /* in the timeline's list, until it signals */
    struct timeline *timeline;   /* NULL for an array */
    enum fence_state state;
    uint64_t cancelled_at;
    uint64_t context;
    uint64_t value; /* the 64-bit point, as the device counts */
    uint32_t seqno;
    unsigned holders;
    bool is_enabled;
    const char *driver;
    char timeline_name[BIM_TEXT_ROOM];
};

/* The fences of a file, by rising context. */
struct fences {
    struct fence **at;
    size_t count;
    struct fence *array; /* the array of a file with several fences, in a trace */
};

/* Appends a timeline. Returns NULL if there is no memory. */
struct timeline *record_timeline(struct timelines *all, uint64_t number, const char *name, size_t length);
/* Signals all fences of a timeline below `pending`, its first point that is still pending; all of them for 0. Returns
 * whether there were any. */
bool record_signal(struct timeline *timeline, uint64_t pending, struct trace *trace);
/* Cancels all pending fences of a timeline that is closed at `value`. */
void record_close(struct timeline *timeline, uint64_t value, uint64_t now, struct trace *trace);
/* Notes that no process has the timeline any more. It is freed with its last fence. */
void record_forget(struct timeline *timeline);

/* Fills `fences` with one new fence of a timeline; `point` is the device's description of its point. Returns 0 or
 * ENOMEM. */
int record_fence(struct fences *fences, struct timeline *timeline, uint32_t seqno, const bim_device_point *point,
                 struct trace *trace);
/* Makes an empty list with room for `count` fences. Returns 0 or ENOMEM. */
int record_room(struct fences *fences, size_t count);
/* Adds the fence of a timeline's pending point `value` to a list that has room, if any file holds that fence. */
void record_hold(struct fences *fences, const struct timeline *timeline, uint64_t value);
/* Traces the fences of a file as one array with this context. Returns 0 or ENOMEM. */
int record_array(struct fences *fences, uint64_t context, struct trace *trace);
/* Returns the fence that a wait on the file waits for, or NULL. */
struct fence *record_waited(const struct fences *fences);
/* Traces that a process waits for the file. */
void record_enable(struct fences *fences, struct trace *trace);
/* Releases all fences. With `with_process`, a pending fence on a timeline that ends with its process isn't traced as
 * destroyed. */
void record_drop(struct fences *fences, bool with_process, struct trace *trace);

#endif
