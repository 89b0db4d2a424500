/* The part of libbimphlai that is written in C: names that end with a NUL, and texts. All else is proved code, which
 * these functions call. */
#include "bimphlai.h"

#include <string.h>

const char *bim_version(void)
{
    return BIM_VERSION;
}

const char *bim_refusal_name(int refusal)
{
    switch (refusal) {
    case BIM_OK: return "Ok";
    case BIM_SYNTAX: return "Syntax";
    case BIM_NO_ENTRY: return "NoEntry";
    case BIM_EXISTS: return "Exists";
    case BIM_OVERFLOW: return "Overflow";
    case BIM_FLAGS: return "Flags";
    case BIM_LIMIT: return "Limit";
    case BIM_SIGNALLED: return "Signalled";
    case BIM_TIMED_OUT: return "TimedOut";
    case BIM_FOREIGN: return "Foreign";
    case BIM_TORN: return "Torn";
    case BIM_NOT_ALL: return "NotAll";
    case BIM_LONG_LINE: return "LongLine";
    case BIM_CANCELLED: return "Cancelled";
    case BIM_MEMORY: return "Memory";
    default: return "?";
    }
}

int bim_timeline(bim_desk *desk, const char *timeline, uint64_t *context)
{
    return bim_timeline_n(desk, timeline, strlen(timeline), context);
}

int bim_inc(bim_desk *desk, const char *timeline, uint64_t n, uint64_t *value)
{
    return bim_inc_n(desk, timeline, strlen(timeline), n, value);
}

int bim_shut(bim_desk *desk, const char *timeline, uint64_t *value)
{
    return bim_shut_n(desk, timeline, strlen(timeline), value);
}

int bim_value(bim_desk *desk, const char *timeline, uint64_t *value)
{
    return bim_value_n(desk, timeline, strlen(timeline), value);
}

int bim_fence(bim_desk *desk, const char *file, const char *timeline, uint64_t point)
{
    return bim_fence_n(desk, file, strlen(file), timeline, strlen(timeline), point);
}

int bim_merge(bim_desk *desk, const char *file, const char *a, const char *b)
{
    return bim_merge_n(desk, file, strlen(file), a, strlen(a), b, strlen(b));
}

int bim_close(bim_desk *desk, const char *file)
{
    return bim_close_n(desk, file, strlen(file));
}

int bim_wait(bim_desk *desk, const char *file)
{
    return bim_wait_n(desk, file, strlen(file));
}

int bim_info(bim_desk *desk, const char *file, int32_t *status, bim_fence_info *rows, size_t room, size_t *count)
{
    bim_fence_info none;

    return bim_info_n(desk, file, strlen(file), status, room ? rows : &none, room, count);
}

int bim_buffer(bim_desk *desk, const char *buffer)
{
    return bim_buffer_n(desk, buffer, strlen(buffer));
}

int bim_add(bim_desk *desk, const char *buffer, const char *timeline, uint64_t point, int usage)
{
    return bim_add_n(desk, buffer, strlen(buffer), timeline, strlen(timeline), point, usage);
}

int bim_import(bim_desk *desk, const char *buffer, const char *file, uint32_t flags)
{
    return bim_import_n(desk, buffer, strlen(buffer), file, strlen(file), flags);
}

int bim_export(bim_desk *desk, const char *file, const char *buffer, uint32_t flags)
{
    return bim_export_n(desk, file, strlen(file), buffer, strlen(buffer), flags);
}

int bim_test(bim_desk *desk, const char *buffer, int usage, int *signalled)
{
    return bim_test_n(desk, buffer, strlen(buffer), usage, signalled);
}

int bim_trim(bim_desk *desk, const char *buffer)
{
    return bim_trim_n(desk, buffer, strlen(buffer));
}

int bim_show(bim_desk *desk, const char *buffer, bim_row *rows, size_t room, size_t *count)
{
    bim_row none;

    return bim_show_n(desk, buffer, strlen(buffer), room ? rows : &none, room, count);
}

int bim_watch(bim_desk *desk, const char *file, uint64_t cookie)
{
    return bim_watch_n(desk, file, strlen(file), cookie);
}

int bim_report(bim_desk *desk, bim_timeline_row *timelines, size_t timelines_room, bim_file_row *files,
               size_t files_room, bim_buffer_row *buffers, size_t buffers_room, bim_counts *counts)
{
    bim_timeline_row no_timeline;
    bim_file_row no_file;
    bim_buffer_row no_buffer;

    return bim_report_n(desk, timelines_room ? timelines : &no_timeline, timelines_room, files_room ? files : &no_file,
                        files_room, buffers_room ? buffers : &no_buffer, buffers_room, counts);
}

int bim_device_timeline(bim_device *device, const char *task, uint64_t *timeline)
{
    return bim_device_timeline_n(device, task, strlen(task), timeline);
}

int bim_device_merge(bim_device *device, uint64_t a, uint64_t b, const char *name, uint64_t *file)
{
    return bim_device_merge_n(device, a, b, name, strlen(name), file);
}

int bim_device_info(bim_device *device, uint64_t file, bim_device_file_info *info, bim_device_fence_info *rows,
                    size_t room)
{
    bim_device_fence_info none;

    return bim_device_info_n(device, file, info, room ? rows : &none, room);
}
