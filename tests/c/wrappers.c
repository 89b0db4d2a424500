/* The calls with NUL-terminated names must pass on each argument unchanged, and each name with its length. Stand-ins
 * for their exports record the arguments. */
#include "expect.h"

#include <bimphlai.h>
#include <stdint.h>
#include <string.h>

#define PLACE(pointer) ((uint64_t)(uintptr_t)(pointer))

enum { ANSWER = 77, MOST = 12 };

static const char *called;
static uint64_t given[MOST];
static size_t number;

static void keep(uint64_t value)
{
    if (number < MOST)
        given[number] = value;
    number++;
}

static int begin(const char *name, const void *handle)
{
    called = name;
    number = 0;
    keep(PLACE(handle));
    return ANSWER;
}

static void keep_name(const char *name, size_t length)
{
    keep(PLACE(name));
    keep(length);
}

/* Defines a stand-in: its name, its parameters, and what it records of them. */
#define STAND_IN(name, parameters, keeps) \
    int name parameters \
    { \
        int answer = begin(#name, handle); \
        keeps; \
        return answer; \
    }

#define NAME(name) const char *name, size_t name##_length
#define KEEP(name) keep_name(name, name##_length)

STAND_IN(bim_timeline_n, (bim_desk *handle, NAME(timeline), uint64_t *context), KEEP(timeline); keep(PLACE(context)))
STAND_IN(bim_inc_n, (bim_desk *handle, NAME(timeline), uint64_t n, uint64_t *value),
         KEEP(timeline); keep(n); keep(PLACE(value)))
STAND_IN(bim_shut_n, (bim_desk *handle, NAME(timeline), uint64_t *value), KEEP(timeline); keep(PLACE(value)))
STAND_IN(bim_value_n, (bim_desk *handle, NAME(timeline), uint64_t *value), KEEP(timeline); keep(PLACE(value)))
STAND_IN(bim_fence_n, (bim_desk *handle, NAME(file), NAME(timeline), uint64_t point),
         KEEP(file); KEEP(timeline); keep(point))
STAND_IN(bim_merge_n, (bim_desk *handle, NAME(file), NAME(a), NAME(b)), KEEP(file); KEEP(a); KEEP(b))
STAND_IN(bim_close_n, (bim_desk *handle, NAME(file)), KEEP(file))
STAND_IN(bim_wait_n, (bim_desk *handle, NAME(file)), KEEP(file))
STAND_IN(bim_info_n, (bim_desk *handle, NAME(file), int32_t *status, bim_fence_info *rows, size_t room, size_t *count),
         KEEP(file); keep(PLACE(status)); keep(PLACE(rows)); keep(room); keep(PLACE(count)))
STAND_IN(bim_buffer_n, (bim_desk *handle, NAME(buffer)), KEEP(buffer))
STAND_IN(bim_add_n, (bim_desk *handle, NAME(buffer), NAME(timeline), uint64_t point, int usage),
         KEEP(buffer); KEEP(timeline); keep(point); keep((uint64_t)usage))
STAND_IN(bim_import_n, (bim_desk *handle, NAME(buffer), NAME(file), uint32_t flags),
         KEEP(buffer); KEEP(file); keep(flags))
STAND_IN(bim_export_n, (bim_desk *handle, NAME(file), NAME(buffer), uint32_t flags),
         KEEP(file); KEEP(buffer); keep(flags))
STAND_IN(bim_test_n, (bim_desk *handle, NAME(buffer), int usage, int *signalled),
         KEEP(buffer); keep((uint64_t)usage); keep(PLACE(signalled)))
STAND_IN(bim_trim_n, (bim_desk *handle, NAME(buffer)), KEEP(buffer))
STAND_IN(bim_show_n, (bim_desk *handle, NAME(buffer), bim_row *rows, size_t room, size_t *count),
         KEEP(buffer); keep(PLACE(rows)); keep(room); keep(PLACE(count)))
STAND_IN(bim_watch_n, (bim_desk *handle, NAME(file), uint64_t cookie), KEEP(file); keep(cookie))
STAND_IN(bim_report_n, (bim_desk *handle, bim_timeline_row *timelines, size_t timelines_room, bim_file_row *files,
                        size_t files_room, bim_buffer_row *buffers, size_t buffers_room, bim_counts *counts),
         keep(PLACE(timelines)); keep(timelines_room); keep(PLACE(files)); keep(files_room); keep(PLACE(buffers));
         keep(buffers_room); keep(PLACE(counts)))

STAND_IN(bim_device_timeline_n, (bim_device *handle, NAME(task), uint64_t *timeline), KEEP(task); keep(PLACE(timeline)))
STAND_IN(bim_device_merge_n, (bim_device *handle, uint64_t a, uint64_t b, NAME(name), uint64_t *file),
         keep(a); keep(b); KEEP(name); keep(PLACE(file)))
STAND_IN(bim_device_info_n, (bim_device *handle, uint64_t file, bim_device_file_info *info, bim_device_fence_info *rows,
                             size_t room),
         keep(file); keep(PLACE(info)); keep(PLACE(rows)); keep(room))

/* Recorded for a pointer to no rows, which may be any but NULL. */
#define ANY UINT64_MAX

static void compare(const char *file, int line, const char *call, const char *name, const uint64_t *wanted, size_t length)
{
    expect(file, line, call, strcmp(called, name), 0);
    expect(file, line, call, (long long)number, (long long)length);
    for (size_t i = 0; i < length && i < MOST; i++) {
        if (wanted[i] == ANY)
            expect(file, line, call, given[i] != 0, 1);
        else
            expect(file, line, call, (long long)given[i], (long long)wanted[i]);
    }
}

#define PASSES(function, arguments, ...) \
    do { \
        const uint64_t wanted[] = {__VA_ARGS__}; \
        called = ""; \
        EXPECT(function arguments, ANSWER); \
        compare(__FILE__, __LINE__, #function, #function "_n", wanted, sizeof wanted / sizeof *wanted); \
    } while (0)

static const uint64_t GREAT = 0xFEDCBA9876543210, GREATEST = UINT64_MAX - 1;

static void names_and_numbers(bim_desk *desk)
{
    static const char a[] = "a", frame[] = "frame", buffer[] = "a buffer's name", empty[] = "";
    uint64_t value;
    int signalled;

    PASSES(bim_timeline, (desk, a, &value), PLACE(desk), PLACE(a), 1, PLACE(&value));
    PASSES(bim_timeline, (desk, empty, NULL), PLACE(desk), PLACE(empty), 0, 0);
    PASSES(bim_inc, (desk, frame, GREAT, &value), PLACE(desk), PLACE(frame), 5, GREAT, PLACE(&value));
    PASSES(bim_inc, (desk, frame, GREATEST, NULL), PLACE(desk), PLACE(frame), 5, GREATEST, 0);
    PASSES(bim_shut, (desk, frame, &value), PLACE(desk), PLACE(frame), 5, PLACE(&value));
    PASSES(bim_value, (desk, frame, &value), PLACE(desk), PLACE(frame), 5, PLACE(&value));
    PASSES(bim_fence, (desk, frame, a, GREAT), PLACE(desk), PLACE(frame), 5, PLACE(a), 1, GREAT);
    PASSES(bim_fence, (desk, a, frame, GREATEST), PLACE(desk), PLACE(a), 1, PLACE(frame), 5, GREATEST);
    PASSES(bim_merge, (desk, frame, a, buffer), PLACE(desk), PLACE(frame), 5, PLACE(a), 1, PLACE(buffer), 15);
    PASSES(bim_merge, (desk, empty, buffer, frame), PLACE(desk), PLACE(empty), 0, PLACE(buffer), 15, PLACE(frame), 5);
    PASSES(bim_close, (desk, frame), PLACE(desk), PLACE(frame), 5);
    PASSES(bim_wait, (desk, frame), PLACE(desk), PLACE(frame), 5);
    PASSES(bim_buffer, (desk, buffer), PLACE(desk), PLACE(buffer), 15);
    PASSES(bim_add, (desk, buffer, a, GREAT, 3), PLACE(desk), PLACE(buffer), 15, PLACE(a), 1, GREAT, 3);
    PASSES(bim_add, (desk, a, buffer, 1, -7), PLACE(desk), PLACE(a), 1, PLACE(buffer), 15, 1, (uint64_t)-7);
    PASSES(bim_import, (desk, buffer, frame, 5), PLACE(desk), PLACE(buffer), 15, PLACE(frame), 5, 5);
    PASSES(bim_import, (desk, frame, buffer, UINT32_MAX), PLACE(desk), PLACE(frame), 5, PLACE(buffer), 15, UINT32_MAX);
    PASSES(bim_export, (desk, frame, buffer, 5), PLACE(desk), PLACE(frame), 5, PLACE(buffer), 15, 5);
    PASSES(bim_export, (desk, buffer, frame, UINT32_MAX), PLACE(desk), PLACE(buffer), 15, PLACE(frame), 5, UINT32_MAX);
    PASSES(bim_test, (desk, buffer, 3, &signalled), PLACE(desk), PLACE(buffer), 15, 3, PLACE(&signalled));
    PASSES(bim_test, (desk, buffer, -7, NULL), PLACE(desk), PLACE(buffer), 15, (uint64_t)-7, 0);
    PASSES(bim_trim, (desk, buffer), PLACE(desk), PLACE(buffer), 15);
    PASSES(bim_watch, (desk, frame, GREAT), PLACE(desk), PLACE(frame), 5, GREAT);
}

static void rows_and_rooms(bim_desk *desk)
{
    static const char frame[] = "frame";
    bim_fence_info fences[3];
    bim_row rows[3];
    bim_timeline_row timelines[3];
    bim_file_row files[3];
    bim_buffer_row buffers[3];
    bim_counts counts;
    int32_t status;
    size_t count;

    for (size_t room = 1; room <= 3; room++) {
        PASSES(bim_info, (desk, frame, &status, fences, room, &count), PLACE(desk), PLACE(frame), 5, PLACE(&status),
               PLACE(fences), room, PLACE(&count));
        PASSES(bim_show, (desk, frame, rows, room, &count), PLACE(desk), PLACE(frame), 5, PLACE(rows), room, PLACE(&count));
        PASSES(bim_report, (desk, timelines, room, files, 4 - room, buffers, room % 3 + 1, &counts), PLACE(desk),
               PLACE(timelines), room, PLACE(files), 4 - room, PLACE(buffers), room % 3 + 1, PLACE(&counts));
    }
    /* Without room there may be no rows. */
    PASSES(bim_info, (desk, frame, &status, NULL, 0, &count), PLACE(desk), PLACE(frame), 5, PLACE(&status), ANY, 0,
           PLACE(&count));
    PASSES(bim_show, (desk, frame, NULL, 0, &count), PLACE(desk), PLACE(frame), 5, ANY, 0, PLACE(&count));
    PASSES(bim_report, (desk, NULL, 0, NULL, 0, NULL, 0, &counts), PLACE(desk), ANY, 0, ANY, 0, ANY, 0, PLACE(&counts));
    PASSES(bim_report, (desk, NULL, 0, files, 2, NULL, 0, &counts), PLACE(desk), ANY, 0, PLACE(files), 2, ANY, 0,
           PLACE(&counts));
}

static void devices(bim_device *device)
{
    static const char task[] = "a task's name", empty[] = "";
    bim_device_file_info info;
    bim_device_fence_info rows[3];
    uint64_t made;

    PASSES(bim_device_timeline, (device, task, &made), PLACE(device), PLACE(task), 13, PLACE(&made));
    PASSES(bim_device_timeline, (device, empty, NULL), PLACE(device), PLACE(empty), 0, 0);
    PASSES(bim_device_merge, (device, GREAT, GREATEST, task, &made), PLACE(device), GREAT, GREATEST, PLACE(task), 13,
           PLACE(&made));
    PASSES(bim_device_merge, (device, 1, 2, empty, NULL), PLACE(device), 1, 2, PLACE(empty), 0, 0);
    for (size_t room = 1; room <= 3; room++)
        PASSES(bim_device_info, (device, GREAT, &info, rows, room), PLACE(device), GREAT, PLACE(&info), PLACE(rows),
               room);
    PASSES(bim_device_info, (device, GREATEST, &info, NULL, 0), PLACE(device), GREATEST, PLACE(&info), ANY, 0);
}

/* All names of refusals are compared with the crate's elsewhere. An unknown number has the name "?". */
static void texts(void)
{
    HOLDS(strcmp(bim_refusal_name(BIM_OK), "Ok") == 0);
    HOLDS(strcmp(bim_refusal_name(BIM_MEMORY), "Memory") == 0);
    HOLDS(strcmp(bim_refusal_name(-1), "?") == 0);
    HOLDS(strcmp(bim_refusal_name(BIM_MEMORY + 100), "?") == 0);
    HOLDS(strcmp(bim_version(), BIM_VERSION) == 0);
}

int main(void)
{
    bim_desk desk = BIM_DESK_INIT;
    bim_device device = BIM_DEVICE_INIT;

    texts();
    names_and_numbers(&desk);
    rows_and_rooms(&desk);
    devices(&device);
    return report("wrappers");
}
