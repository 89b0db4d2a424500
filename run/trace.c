#include "trace.h"

#include "record.h"

#include <errno.h>
#include <fcntl.h>
#include <stdio.h>
#include <stdlib.h>
#include <string.h>
#include <unistd.h>

enum { LINE_ROOM = 256 };

/* By the second line fencectl knows that a trace without fences is one of a program that made none. */
static const char HEADER[] = "# tracer: nop\n"
                             "# recorded by bimphlai-run\n"
                             "#\n"
                             "#                                _-----=> irqs-off/BH-disabled\n"
                             "#                               / _----=> need-resched\n"
                             "#                              | / _---=> hardirq/softirq\n"
                             "#                              || / _--=> preempt-depth\n"
                             "#                              ||| / _-=> migrate-disable\n"
                             "#                              |||| /     delay\n"
                             "#           TASK-PID     CPU#  |||||  TIMESTAMP  FUNCTION\n"
                             "#              | |         |   |||||     |         |\n";

/* Writes all of a text. */
static int write_all(int file, const char *text, size_t length)
{
    while (length > 0) {
        ssize_t written = write(file, text, length);

        if (written < 0 && errno == EINTR)
            continue;
        if (written <= 0)
            return written < 0 ? errno : EIO;
        text += written;
        length -= written;
    }
    return 0;
}

int trace_begin(const char *path)
{
    int file = open(path, O_WRONLY | O_CREAT | O_TRUNC | O_CLOEXEC, 0666);
    int error = file < 0 ? errno : write_all(file, HEADER, sizeof HEADER - 1);

    if (file >= 0)
        close(file);
    return error;
}

struct trace *trace_open(const char *path)
{
    struct trace *trace = calloc(1, sizeof *trace);

    if (!trace)
        return NULL;
    trace->file = open(path, O_WRONLY | O_APPEND | O_CLOEXEC);
    if (trace->file >= 0)
        return trace;
    free(trace);
    return NULL;
}

void trace_close(struct trace *trace)
{
    if (trace && trace->file >= 0)
        close(trace->file);
    free(trace);
}

static void add_head(struct trace *trace)
{
    uint64_t us = trace->now / 1000;

    trace->length += snprintf(trace->text + trace->length, TRACE_BYTES - trace->length,
                              "%16.*s-%-7d [%03d] ..... %5llu.%06llu: ", BIM_TASK_ROOM - 1, trace->who.task,
                              trace->who.thread, trace->who.processor, (unsigned long long)(us / 1000000),
                              (unsigned long long)(us % 1000000));
}

void trace_event(struct trace *trace, const char *event, const struct fence *fence)
{
    if (!trace)
        return;
    if (trace->length > TRACE_BYTES - LINE_ROOM)
        trace_flush(trace);
    add_head(trace);
    trace->length += snprintf(trace->text + trace->length, TRACE_BYTES - trace->length,
                              "dma_fence_%s: driver=%s timeline=%s context=%u seqno=%u\n", event, fence->driver,
                              fence->timeline_name, (unsigned)fence->context, fence->seqno);
}

void trace_end(struct trace *trace, uint64_t now)
{
    if (!trace)
        return;
    trace_flush(trace);
    trace->who = (struct who){ .task = "bimphlai-run", .thread = getpid() };
    trace->now = now;
    add_head(trace);
    trace->length +=
        snprintf(trace->text + trace->length, TRACE_BYTES - trace->length, "tracing_mark_write: " TRACE_END "\n");
    trace_flush(trace);
}

/* Gives up a trace that can't be written, as on a full disk; the program continues. */
void trace_flush(struct trace *trace)
{
    int error;

    if (!trace || trace->length == 0)
        return;
    error = trace->file < 0 ? 0 : write_all(trace->file, trace->text, trace->length);
    trace->length = 0;
    if (!error)
        return;
    dprintf(STDERR_FILENO, "bimphlai-run: the trace can't be written: %s; it ends here\n", strerror(error));
    close(trace->file);
    trace->file = -1;
}
