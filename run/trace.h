/* The trace: fence events in ftrace's text format. */
#ifndef BIM_RUN_TRACE_H
#define BIM_RUN_TRACE_H

#include "wire.h"

#include <stdint.h>

/* The thread that an event is attributed to, and the time in nanoseconds. */
struct who {
    char task[BIM_TASK_ROOM];
    int32_t thread, processor;
};

enum { TRACE_BYTES = 65536 };

/* What the last record of a trace says, so that `fencectl trace` knows until when a fence that hangs was pending. */
#define TRACE_END "end of the trace"

struct trace {
    int file;
    struct who who;
    uint64_t now;
    size_t length;
    char text[TRACE_BYTES];
};

struct fence;

/* Opens a file to append trace lines to. Returns NULL with errno on failure. */
struct trace *trace_open(const char *path);
void trace_close(struct trace *trace);
/* Creates or truncates the file, and writes ftrace's header lines. Returns 0 or an errno. */
int trace_begin(const char *path);
/* Add a line. trace_flush writes all events of a request at once. These do nothing if `trace` is NULL. */
void trace_event(struct trace *trace, const char *event, const struct fence *fence);
void trace_flush(struct trace *trace);
/* Adds the last record, at a time in nanoseconds, and writes all. */
void trace_end(struct trace *trace, uint64_t now);

#endif
