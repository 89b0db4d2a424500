/* Refuses each allocation of the library in turn. The call whose allocation fails must return BIM_MEMORY, or BIM_ENOMEM
 * for a device, change nothing, and succeed when it is repeated. So the calls end in the same state, whichever
 * allocation fails.
 *
 * Link with --wrap=malloc and --wrap=realloc.
 */
#include <bimphlai.h>

#include "expect.h"
#include <inttypes.h>
#include <stdarg.h>
#include <stdbool.h>
#include <stdlib.h>
#include <string.h>

/* The initial value of out-parameters that a refused call must not change. */
enum { KEPT = 77 };

/* How many objects a device has here. */
enum { OBJECTS = 16 };

/* A value of `refused` that fails each allocation. */
#define EVERY SIZE_MAX

/* The index of the allocation that fails, the number of allocations so far, and whether they are counted now. */
static size_t refused, allocations;
static bool counting;

void *__real_malloc(size_t size);
void *__real_realloc(void *block, size_t size);

static bool is_refused(void)
{
    return counting && (++allocations == refused || refused == EVERY);
}

void *__wrap_malloc(size_t size)
{
    return is_refused() ? NULL : __real_malloc(size);
}

void *__wrap_realloc(void *block, size_t size)
{
    return is_refused() ? NULL : __real_realloc(block, size);
}

/* The state of the service, as text. */
struct text {
    char bytes[8192];
    size_t length;
};

static void write_text(struct text *text, const char *format, ...)
{
    va_list words;

    va_start(words, format);
    text->length += (size_t)vsnprintf(text->bytes + text->length, sizeof text->bytes - text->length, format, words);
    va_end(words);
    if (text->length >= sizeof text->bytes)
        abort();
}

static void write_file(struct text *text, bim_desk *desk, const char *file)
{
    bim_fence_info rows[4];
    int32_t status = KEPT;
    size_t count = 0;
    int refusal = bim_info(desk, file, &status, rows, 4, &count);

    write_text(text, "%s %d %" PRId32 " %zu\n", file, refusal, status, count);
    for (size_t i = 0; i < count; i++)
        write_text(text, "%s %s %" PRIu64 " %" PRId32 "\n", rows[i].timeline, rows[i].driver, rows[i].point,
                   rows[i].status);
}

static void write_buffer(struct text *text, bim_desk *desk, const char *buffer)
{
    bim_row rows[16];
    size_t count = 0;
    int refusal = bim_show(desk, buffer, rows, 16, &count);

    write_text(text, "%s %d %zu\n", buffer, refusal, count);
    for (size_t i = 0; i < count; i++)
        write_text(text, "%" PRId32 " %s %" PRIu64 "\n", rows[i].usage, rows[i].timeline, rows[i].point);
}

/* Handles and out-parameters that the calls share. */
static struct {
    bim_desk desk;
    bim_device device;
    uint64_t number;
    int32_t status;
    size_t count;
    int flag;
    bim_fence_info info;
    bim_row row;
    bim_timeline_row timeline;
    bim_file_row made;
    bim_buffer_row buffer;
    bim_counts counts;
    bim_device_file_info reported;
    bim_device_fence_info fence;
    bim_device_point point;
    bim_device_raised raised;
    char answer[2 * BIM_ANSWER_ROOM];
    size_t length;
} it;

static void write_object(struct text *text, bim_device *device, uint64_t object)
{
    bim_device_file_info info = { .fences = 0 };
    bim_device_fence_info rows[4];
    int32_t signalled = KEPT;
    int refusal = bim_device_info(device, object, &info, rows, 4), no_buffer;

    no_buffer = bim_device_test(device, object, BIM_BOOKKEEP, &signalled);
    write_text(text, "%" PRIu64 " %d %s %" PRId32 " %d %" PRId32 "\n", object, refusal, refusal ? "" : info.name,
               refusal ? KEPT : info.status, no_buffer, signalled);
    for (size_t i = 0; i < info.fences; i++)
        write_text(text, "%s %s %" PRIu64 " %" PRId32 "\n", rows[i].timeline, rows[i].driver, rows[i].at,
                   rows[i].status);
}

/* Writes all that the service can be asked. */
static void write_service(struct text *text)
{
    static const char *const timelines[] = { "a", "b" };
    static const char *const files[] = { "f", "g", "m", "n", "x" };
    static const char *const buffers[] = { "B", "C" };
    uint64_t value;

    text->length = 0;
    write_text(text, "%d %d\n", it.desk.at != NULL, it.device.at != NULL);
    for (size_t i = 0; i < sizeof timelines / sizeof timelines[0]; i++) {
        value = KEPT;
        int refusal = bim_value(&it.desk, timelines[i], &value);
        write_text(text, "%s %d %" PRIu64 "\n", timelines[i], refusal, value);
    }
    for (size_t i = 0; i < sizeof files / sizeof files[0]; i++)
        write_file(text, &it.desk, files[i]);
    for (size_t i = 0; i < sizeof buffers / sizeof buffers[0]; i++)
        write_buffer(text, &it.desk, buffers[i]);
    for (uint64_t object = 1; object <= OBJECTS; object++)
        write_object(text, &it.device, object);
}

static struct text before, after;
static size_t allocations_before, refusals_met;

/* What a call returns for want of memory. */
static int no_memory = BIM_MEMORY;

/* Whether the call may succeed though the allocation failed: an increment does if the allocation was for moving a watch
 * to its next point. The watch then stays, and the next increment checks it. */
static bool may_go_on;
static size_t stays; /* how often that happened */

static void begin_call(void)
{
    write_service(&before);
    it.number = it.info.point = it.row.point = it.reported.fences = it.fence.at = KEPT;
    it.timeline.value = it.made.fences = it.buffer.rows = it.counts.files = KEPT;
    it.raised.pending = it.raised.woken = KEPT;
    it.status = it.flag = KEPT;
    it.count = it.length = KEPT;
    allocations_before = allocations;
    counting = true;
}

/* Returns whether the call has to be repeated because its allocation failed. Then it must have changed nothing. A list
 * whose growth with slack fails asks for just the bytes that it needs, and then the call succeeds. Every other cause of
 * refusal is returned before the lack of memory. */
static bool is_to_call_again(int came, int wanted, const char *call, int line)
{
    bool was_refused = allocations_before < refused && refused <= allocations;
    bool stayed = was_refused && came == wanted && refused == allocations && may_go_on;
    bool went_on = was_refused && came == wanted && (refused < allocations || wanted != BIM_OK || stayed);

    counting = false;
    refusals_met += was_refused;
    stays += stayed;
    expect(__FILE__, line, call, came, was_refused && !went_on && wanted == BIM_OK ? no_memory : wanted);
    if (!was_refused || went_on)
        return false;
    write_service(&after);
    HOLDS(strcmp(before.bytes, after.bytes) == 0);
    HOLDS(it.number == KEPT && it.status == KEPT && it.count == KEPT && it.flag == KEPT);
    HOLDS(it.info.point == KEPT && it.row.point == KEPT && it.counts.files == KEPT);
    HOLDS(it.timeline.value == KEPT && it.made.fences == KEPT && it.buffer.rows == KEPT);
    HOLDS(it.reported.fences == KEPT && it.fence.at == KEPT);
    HOLDS(it.raised.pending == KEPT && it.raised.woken == KEPT);
    HOLDS(it.length == KEPT || strcmp(it.answer, "err 16 Memory\n") == 0);
    return true;
}

#define CALL(call, wanted) \
    do \
        begin_call(); \
    while (is_to_call_again((call), (wanted), #call, __LINE__))

/* MEMORY for bim_line, whose refusal has a text too. */
#define LINE(line, text) \
    do { \
        CALL(bim_line(&it.desk, line, strlen(line), it.answer, sizeof it.answer, &it.length), BIM_OK); \
        HOLDS(strcmp(it.answer, text) == 0 && it.length == strlen(text)); \
    } while (0)

/* Makes each call of a desk. */
static void run_desk(void)
{
    CALL(bim_desk_open(&it.desk), BIM_OK);
    CALL(bim_timeline(&it.desk, "a", &it.number), BIM_OK);
    CALL(bim_timeline(&it.desk, "b", &it.number), BIM_OK);
    CALL(bim_fence(&it.desk, "f", "a", 3), BIM_OK);
    CALL(bim_fence(&it.desk, "g", "b", 2), BIM_OK);
    CALL(bim_fence(&it.desk, "g", "b", 2), BIM_EXISTS);
    CALL(bim_merge(&it.desk, "m", "f", "g"), BIM_OK);
    CALL(bim_info(&it.desk, "m", &it.status, &it.info, 1, &it.count), BIM_OK);
    CALL(bim_buffer(&it.desk, "B"), BIM_OK);
    CALL(bim_buffer(&it.desk, "C"), BIM_OK);
    CALL(bim_add(&it.desk, "B", "a", 5, BIM_READ), BIM_OK);
    CALL(bim_import(&it.desk, "B", "m", BIM_SYNC_WRITE), BIM_OK);
    CALL(bim_export(&it.desk, "x", "B", BIM_SYNC_RW), BIM_OK);
    CALL(bim_show(&it.desk, "B", &it.row, 1, &it.count), BIM_OK);
    CALL(bim_test(&it.desk, "B", BIM_WRITE, &it.flag), BIM_OK);
    CALL(bim_trim(&it.desk, "B"), BIM_OK);
    for (uint64_t cookie = 0; cookie < 9; cookie++)
        CALL(bim_watch(&it.desk, cookie % 2 ? "f" : "m", cookie), BIM_OK);
    CALL(bim_unwatch(&it.desk, 4, &it.flag), BIM_OK);
    CALL(bim_wait(&it.desk, "m"), BIM_TIMED_OUT);
    may_go_on = true;
    CALL(bim_inc(&it.desk, "a", 3, &it.number), BIM_OK);
    may_go_on = false;
    CALL(bim_shut(&it.desk, "b", &it.number), BIM_OK);
    CALL(bim_merge(&it.desk, "n", "m", "x"), BIM_OK);
    CALL(bim_close(&it.desk, "m"), BIM_OK);
    CALL(bim_report(&it.desk, &it.timeline, 1, &it.made, 1, &it.buffer, 1, &it.counts), BIM_OK);
}

/* Runs lines: some create objects, others have rows. */
static void run_lines(void)
{
    LINE("timeline c", "ok 3\n");
    LINE("fence later c 2", "ok\n");
    LINE("watch later 9", "ok\n");
    LINE("info later", "ok later 0 1\nfence c sw_sync 2 0\n");
    LINE("add B c 7 read", "ok\n");
    LINE("inc c 2", "ok 2\n");
}

/* Makes a call of a device that creates an object, and stores its number. */
#define MAKES(call, object) \
    do { \
        CALL(call, 0); \
        EXPECT(it.number, object); \
    } while (0)

/* Makes each call of a device. Timelines 1 and 2 have files 3 and 4. */
static void run_device(void)
{
    no_memory = BIM_ENOMEM;
    CALL(bim_device_open(&it.device), 0);
    MAKES(bim_device_timeline(&it.device, "a", &it.number), 1);
    MAKES(bim_device_timeline(&it.device, "b", &it.number), 2);
    MAKES(bim_device_fence(&it.device, 1, 3, 1, &it.number), 3);
    MAKES(bim_device_fence(&it.device, 2, 2, 1, &it.number), 4);
    CALL(bim_device_fence(&it.device, 4, 2, 1, &it.number), BIM_ENOTTY);
    MAKES(bim_device_merge(&it.device, 3, 4, "both", &it.number), 5);
    CALL(bim_device_info(&it.device, 5, &it.reported, &it.fence, 1), 0);
    CALL(bim_device_status(&it.device, 5, &it.status), 0);
    CALL(bim_device_is_signalled(&it.device, 5, &it.status), 0);
    CALL(bim_device_value(&it.device, 1, &it.number), 0);
    CALL(bim_device_first_due(&it.device, 1, 3, &it.number), 0);
    CALL(bim_device_fence_of(&it.device, 5, 0, &it.point), 0);
    MAKES(bim_device_buffer(&it.device, 1, &it.number), 6);
    CALL(bim_device_import(&it.device, 6, 5, BIM_SYNC_WRITE), 0);
    MAKES(bim_device_export(&it.device, 6, BIM_SYNC_RW, &it.number), 7);
    CALL(bim_device_test(&it.device, 6, BIM_WRITE, &it.status), 0);
    for (uint64_t file = 8; file < OBJECTS; file++)
        MAKES(bim_device_fence(&it.device, 1, (uint32_t)file, 2, &it.number), file);
    CALL(bim_device_inc(&it.device, 1, 3, 3, &it.raised), 0);
    CALL(bim_device_release(&it.device, 6, 4), 0);
    CALL(bim_device_release(&it.device, 8, 4), 0);
    CALL(bim_device_inc(&it.device, 1, 7, 5, &it.raised), 0);
    CALL(bim_device_release(&it.device, 2, 6), 0);
    CALL(bim_device_release(&it.device, 3, 7), 0);
    CALL(bim_device_release(&it.device, 3, 7), BIM_ENOENT);
    CALL(bim_device_inc(&it.device, 2, 1, 8, &it.raised), BIM_ENOENT);
    no_memory = BIM_MEMORY;
}

/* Makes the calls that don't allocate, and closes everything. */
static void finish(struct text *text)
{
    uint64_t cookies[2];
    size_t count;

    write_service(text);
    counting = true;
    while ((count = bim_take_fired(&it.desk, cookies, 2)) > 0)
        for (size_t i = 0; i < count; i++)
            write_text(text, "fired %" PRIu64 "\n", cookies[i]);
    while ((count = bim_device_take_woken(&it.device, cookies, 2)) > 0)
        for (size_t i = 0; i < count; i++)
            write_text(text, "woken %" PRIu64 "\n", cookies[i]);
    bim_desk_close(&it.desk);
    bim_device_close(&it.device);
    counting = false;
}

static void run(struct text *text, size_t which)
{
    memset(&it, 0, sizeof it);
    refused = which;
    allocations = 0;
    run_desk();
    run_lines();
    run_device();
    finish(text);
}

/* If the queue of cookies can't grow, a watch is refused for the desk's own reasons first, and then with BIM_MEMORY. */
static void watch_without_memory(void)
{
    bim_desk desk = BIM_DESK_INIT;
    uint64_t number, cookie;

    refused = EVERY;
    EXPECT(bim_desk_open(&desk), BIM_OK);
    EXPECT(bim_timeline(&desk, "a", &number), BIM_OK);
    EXPECT(bim_fence(&desk, "now", "a", 1), BIM_OK);
    EXPECT(bim_fence(&desk, "later", "a", 2), BIM_OK);
    for (cookie = 0; cookie < BIM_WATCHES; cookie++)
        EXPECT(bim_watch(&desk, cookie == 0 ? "now" : "later", cookie), BIM_OK);
    counting = true;
    EXPECT(bim_watch(&desk, "later", cookie), BIM_LIMIT);
    EXPECT(bim_inc(&desk, "a", 1, &number), BIM_MEMORY);
    counting = false;
    EXPECT(bim_inc(&desk, "a", 1, &number), BIM_OK);
    counting = true;
    EXPECT(bim_watch(&desk, "none", 1), BIM_NO_ENTRY);
    EXPECT(bim_watch(&desk, "later", 1), BIM_EXISTS);
    EXPECT(bim_watch(&desk, "now", cookie), BIM_SIGNALLED);
    EXPECT(bim_watch(&desk, "later", cookie), BIM_MEMORY);
    counting = false;
    EXPECT(bim_watch(&desk, "later", cookie), BIM_OK);
    EXPECT(bim_take_fired(&desk, &number, 1), 1);
    EXPECT(number, 0);
    bim_desk_close(&desk);
}

/* If the list of woken files can't grow, a call of a device fails for its other reasons first, and then with
 * BIM_ENOMEM. Calls that don't allocate still succeed. */
static void device_without_memory(void)
{
    bim_device device = BIM_DEVICE_INIT;
    uint64_t timeline, idle, now, later, buffer, number = KEPT;
    bim_device_file_info info = { .fences = KEPT };
    bim_device_raised raised;
    int32_t status;

    refused = EVERY;
    EXPECT(bim_device_open(&device), 0);
    EXPECT(bim_device_timeline(&device, "a", &timeline), 0);
    EXPECT(bim_device_timeline(&device, "b", &idle), 0);
    EXPECT(bim_device_fence(&device, timeline, 1, 0, &now), 0);
    EXPECT(bim_device_fence(&device, timeline, 2, 0, &later), 0);
    EXPECT(bim_device_buffer(&device, 0, &buffer), 0);
    counting = true;
    EXPECT(bim_device_inc(&device, timeline, 0, 1, &raised), 0);
    EXPECT(bim_device_inc(&device, idle, 1, 1, &raised), 0);
    EXPECT(bim_device_release(&device, idle, 1), 0);
    EXPECT(bim_device_inc(&device, later + 9, 1, 1, &raised), BIM_ENOENT);
    EXPECT(bim_device_inc(&device, later, 1, 1, &raised), BIM_ENOTTY);
    EXPECT(bim_device_inc(&device, buffer, 1, 1, &raised), BIM_ENOTTY);
    EXPECT(bim_device_inc(&device, timeline, 1, 1, &raised), BIM_ENOMEM);
    EXPECT(bim_device_release(&device, timeline, 1), BIM_ENOMEM);
    EXPECT(bim_device_release(&device, later + 9, 1), BIM_ENOENT);
    EXPECT(bim_device_release(&device, buffer, 1), 0);
    EXPECT(bim_device_info(&device, now, &info, NULL, 0), BIM_ENOMEM);
    EXPECT(info.fences, KEPT);
    EXPECT(bim_device_status(&device, now, &status), 0);
    EXPECT(status, BIM_IS_ACTIVE);
    counting = false;
    EXPECT(bim_device_inc(&device, timeline, 1, 2, &raised), 0);
    counting = true;
    EXPECT(bim_device_status(&device, now, &status), 0);
    EXPECT(status, BIM_IS_SIGNALLED);
    EXPECT(bim_device_release(&device, later, 3), 0);
    EXPECT(bim_device_take_woken(&device, &number, 1), 1);
    EXPECT(number, now);
    EXPECT(bim_device_take_woken(&device, &number, 1), 0);
    bim_device_close(&device);
    counting = false;
}

int main(void)
{
    struct text undisturbed, text;
    size_t count;

    run(&undisturbed, 0);
    count = allocations;
    for (size_t which = 1; which <= count; which++) {
        run(&text, which);
        EXPECT(refusals_met, which);
        HOLDS(strcmp(text.bytes, undisturbed.bytes) == 0);
    }
    HOLDS(count > 0);
    EXPECT(stays, 1);
    watch_without_memory();
    device_without_memory();
    printf("%zu allocations were refused in turn\n", count);
    return report("memory");
}
