/* Calls every function of the header with valid and invalid arguments. A refused call must not change its
 * out-parameters. */
#include <bimphlai.h>

#include "expect.h"
#include <stdlib.h>
#include <string.h>

#define LONGEST "a234567890123456789012345678901"
#define TOO_LONG LONGEST "2"
/* The initial value of out-parameters that a refused call must not change. */
enum { KEPT = 77 };

static void texts(void)
{
    HOLDS(strcmp(bim_version(), BIM_VERSION) == 0);
    HOLDS(strcmp(bim_refusal_name(BIM_OK), "Ok") == 0);
    HOLDS(strcmp(bim_refusal_name(BIM_NO_ENTRY), "NoEntry") == 0);
    HOLDS(strcmp(bim_refusal_name(BIM_LONG_LINE), "LongLine") == 0);
    HOLDS(strcmp(bim_refusal_name(BIM_MEMORY), "Memory") == 0);
    HOLDS(strcmp(bim_refusal_name(-1), "?") == 0);
    HOLDS(strcmp(bim_refusal_name(BIM_MEMORY + 1), "?") == 0);
}

static void closed_desk(void)
{
    bim_desk desk = BIM_DESK_INIT;
    uint64_t number = KEPT;
    int32_t status = KEPT;
    int flag = KEPT;
    size_t count = KEPT;
    bim_fence_info info;
    bim_row row;
    bim_counts counts = { KEPT, KEPT, KEPT };

    EXPECT(bim_timeline(&desk, "a", &number), BIM_NO_ENTRY);
    EXPECT(bim_inc(&desk, "a", 1, &number), BIM_NO_ENTRY);
    EXPECT(bim_shut(&desk, "a", &number), BIM_NO_ENTRY);
    EXPECT(bim_value(&desk, "a", &number), BIM_NO_ENTRY);
    EXPECT(bim_fence(&desk, "f", "a", 1), BIM_NO_ENTRY);
    EXPECT(bim_merge(&desk, "f", "a", "b"), BIM_NO_ENTRY);
    EXPECT(bim_close(&desk, "f"), BIM_NO_ENTRY);
    EXPECT(bim_wait(&desk, "f"), BIM_NO_ENTRY);
    EXPECT(bim_info(&desk, "f", &status, &info, 1, &count), BIM_NO_ENTRY);
    EXPECT(bim_buffer(&desk, "b"), BIM_NO_ENTRY);
    EXPECT(bim_add(&desk, "b", "a", 1, BIM_READ), BIM_NO_ENTRY);
    EXPECT(bim_import(&desk, "b", "f", BIM_SYNC_READ), BIM_NO_ENTRY);
    EXPECT(bim_export(&desk, "f", "b", BIM_SYNC_READ), BIM_NO_ENTRY);
    EXPECT(bim_test(&desk, "b", BIM_READ, &flag), BIM_NO_ENTRY);
    EXPECT(bim_trim(&desk, "b"), BIM_NO_ENTRY);
    EXPECT(bim_show(&desk, "b", &row, 1, &count), BIM_NO_ENTRY);
    EXPECT(bim_watch(&desk, "f", 1), BIM_NO_ENTRY);
    EXPECT(bim_unwatch(&desk, 1, &flag), BIM_NO_ENTRY);
    EXPECT(bim_take_fired(&desk, &number, 1), 0);
    EXPECT(bim_report(&desk, NULL, 0, NULL, 0, NULL, 0, &counts), BIM_NO_ENTRY);
    HOLDS(counts.timelines == KEPT && counts.files == KEPT && counts.buffers == KEPT);
    bim_desk_close(&desk);
    EXPECT(number, KEPT);
    EXPECT(status, KEPT);
    EXPECT(flag, KEPT);
    EXPECT(count, KEPT);
    HOLDS(desk.at == NULL);
}

static void timelines(bim_desk *desk)
{
    static const char *const none[] = { "", " ", "a b", "a\n", "a/b", "\xff", TOO_LONG };
    uint64_t number = KEPT;

    for (size_t i = 0; i < sizeof none / sizeof none[0]; i++) {
        EXPECT(bim_timeline(desk, none[i], &number), BIM_SYNTAX);
        EXPECT(bim_inc(desk, none[i], 1, &number), BIM_SYNTAX);
        EXPECT(bim_shut(desk, none[i], &number), BIM_SYNTAX);
        EXPECT(bim_value(desk, none[i], &number), BIM_SYNTAX);
    }
    EXPECT(bim_inc(desk, "a", 1, &number), BIM_NO_ENTRY);
    EXPECT(bim_shut(desk, "a", &number), BIM_NO_ENTRY);
    EXPECT(bim_value(desk, "a", &number), BIM_NO_ENTRY);
    EXPECT(number, KEPT);

    EXPECT(bim_timeline(desk, "a", &number), BIM_OK);
    EXPECT(number, 1);
    EXPECT(bim_timeline(desk, LONGEST, &number), BIM_OK);
    EXPECT(number, 2);
    EXPECT(bim_timeline(desk, "a", &number), BIM_EXISTS);
    EXPECT(number, 2);
    EXPECT(bim_inc(desk, "a", 5, &number), BIM_OK);
    EXPECT(number, 5);
    EXPECT(bim_inc(desk, "a", UINT64_MAX - 4, &number), BIM_OVERFLOW);
    EXPECT(number, 5);
    EXPECT(bim_inc(desk, LONGEST, UINT64_MAX, &number), BIM_OK);
    HOLDS(number == UINT64_MAX);
    EXPECT(bim_value(desk, "a", &number), BIM_OK);
    EXPECT(number, 5);
    number = KEPT;
    EXPECT(bim_shut(desk, LONGEST, &number), BIM_OK);
    HOLDS(number == UINT64_MAX);
    EXPECT(bim_shut(desk, LONGEST, &number), BIM_CANCELLED);
    EXPECT(bim_inc(desk, LONGEST, 0, &number), BIM_CANCELLED);
    HOLDS(number == UINT64_MAX);
}

/* The desk has timeline a at 5. */
static void files(bim_desk *desk)
{
    uint64_t number;

    EXPECT(bim_timeline(desk, "b", &number), BIM_OK);
    EXPECT(bim_fence(desk, "f f", "a", 6), BIM_SYNTAX);
    EXPECT(bim_fence(desk, "f", "", 6), BIM_SYNTAX);
    EXPECT(bim_fence(desk, "f", "c", 6), BIM_NO_ENTRY);
    EXPECT(bim_fence(desk, "f", LONGEST, 6), BIM_CANCELLED);
    EXPECT(bim_fence(desk, "f", "a", 6), BIM_OK);
    EXPECT(bim_fence(desk, "f", "a", 7), BIM_EXISTS);
    EXPECT(bim_fence(desk, "g", "b", 3), BIM_OK);
    EXPECT(bim_merge(desk, "m", "f", "g"), BIM_OK);
    EXPECT(bim_merge(desk, "m", "f", "g"), BIM_EXISTS);
    EXPECT(bim_merge(desk, "n", "f", "h"), BIM_NO_ENTRY);
    EXPECT(bim_merge(desk, "n", "f", "h?"), BIM_SYNTAX);
    EXPECT(bim_merge(desk, "n", "", "g"), BIM_SYNTAX);
    EXPECT(bim_merge(desk, TOO_LONG, "f", "g"), BIM_SYNTAX);
}

/* The desk has timelines a at 5 and b at 0, and file m of points 6 of a and 3 of b. */
static void file_infos(bim_desk *desk)
{
    bim_fence_info rows[3];
    int32_t status = KEPT;
    size_t count = KEPT;
    uint64_t number;

    memset(rows, KEPT, sizeof rows);
    EXPECT(bim_info(desk, "none", &status, rows, 3, &count), BIM_NO_ENTRY);
    EXPECT(bim_info(desk, "no ne", &status, rows, 3, &count), BIM_SYNTAX);
    EXPECT(status, KEPT);
    EXPECT(count, KEPT);
    EXPECT(bim_info(desk, "m", &status, NULL, 0, &count), BIM_OK);
    EXPECT(status, BIM_IS_ACTIVE);
    EXPECT(count, 2);
    HOLDS(rows[0].timeline[0] == KEPT);
    EXPECT(bim_info(desk, "m", &status, rows, 1, &count), BIM_OK);
    EXPECT(count, 2);
    HOLDS(strcmp(rows[0].timeline, "a") == 0 && strcmp(rows[0].driver, "sw_sync") == 0);
    EXPECT(rows[0].point, 6);
    HOLDS(rows[1].timeline[0] == KEPT);
    EXPECT(bim_inc(desk, "b", 3, &number), BIM_OK);
    EXPECT(bim_info(desk, "m", &status, rows, 3, &count), BIM_OK);
    EXPECT(count, 2);
    HOLDS(strcmp(rows[1].timeline, "b") == 0);
    EXPECT(rows[0].status, BIM_IS_ACTIVE);
    EXPECT(rows[1].status, BIM_IS_SIGNALLED);
    HOLDS(rows[2].timeline[0] == KEPT);
}

/* The desk of file_infos, but b is at 3, so its file g is signalled. */
static void waits_and_closes(bim_desk *desk)
{
    bim_fence_info rows[3];
    int32_t status = KEPT;
    size_t count = KEPT;

    EXPECT(bim_wait(desk, "m"), BIM_TIMED_OUT);
    EXPECT(bim_wait(desk, "none"), BIM_NO_ENTRY);
    EXPECT(bim_wait(desk, "?"), BIM_SYNTAX);
    EXPECT(bim_wait(desk, "g"), BIM_OK);
    EXPECT(bim_merge(desk, "stub", "g", "g"), BIM_OK);
    EXPECT(bim_info(desk, "stub", &status, rows, 3, &count), BIM_OK);
    EXPECT(status, BIM_IS_SIGNALLED);
    EXPECT(count, 1);
    HOLDS(strcmp(rows[0].timeline, "stub") == 0 && strcmp(rows[0].driver, "stub") == 0);
    EXPECT(bim_close(desk, "stub"), BIM_OK);
    EXPECT(bim_close(desk, "stub"), BIM_NO_ENTRY);
    EXPECT(bim_close(desk, ""), BIM_SYNTAX);
}

/* The desk has timelines a at 5 and b at 3, and file m of points 6 of a and 3 of b. */
static void buffers(bim_desk *desk)
{
    EXPECT(bim_buffer(desk, ""), BIM_SYNTAX);
    EXPECT(bim_buffer(desk, "B"), BIM_OK);
    EXPECT(bim_buffer(desk, "B"), BIM_EXISTS);
    EXPECT(bim_add(desk, "B", "b", 9, BIM_BOOKKEEP), BIM_OK);
    EXPECT(bim_add(desk, "B", "b", 9, BIM_BOOKKEEP + 1), BIM_FLAGS);
    EXPECT(bim_add(desk, "B", "b", 9, -1), BIM_FLAGS);
    EXPECT(bim_add(desk, "B", "c", 9, BIM_READ), BIM_NO_ENTRY);
    EXPECT(bim_add(desk, "C", "b", 9, BIM_READ), BIM_NO_ENTRY);
    EXPECT(bim_add(desk, "B", "?", 9, BIM_READ), BIM_SYNTAX);
    EXPECT(bim_add(desk, "?", "b", 9, BIM_READ), BIM_SYNTAX);
    EXPECT(bim_import(desk, "B", "m", BIM_SYNC_WRITE), BIM_OK);
    EXPECT(bim_import(desk, "B", "m", 0), BIM_FLAGS);
    EXPECT(bim_import(desk, "B", "m", 4), BIM_FLAGS);
    EXPECT(bim_import(desk, "B", "none", BIM_SYNC_RW), BIM_NO_ENTRY);
    EXPECT(bim_import(desk, "none", "m", BIM_SYNC_RW), BIM_NO_ENTRY);
    EXPECT(bim_import(desk, "B", "?", BIM_SYNC_RW), BIM_SYNTAX);
    EXPECT(bim_import(desk, "?", "m", BIM_SYNC_RW), BIM_SYNTAX);
}

/* The desk of `buffers` with buffer B, into which m was imported for writing. */
static void buffer_tests(bim_desk *desk)
{
    int flag = KEPT;

    EXPECT(bim_test(desk, "B", BIM_WRITE, &flag), BIM_OK);
    EXPECT(flag, 0);
    EXPECT(bim_test(desk, "B", BIM_KERNEL, &flag), BIM_OK);
    EXPECT(flag, 1);
    flag = KEPT;
    EXPECT(bim_test(desk, "B", 4, &flag), BIM_FLAGS);
    EXPECT(bim_test(desk, "B", -1, &flag), BIM_FLAGS);
    EXPECT(bim_test(desk, "C", BIM_READ, &flag), BIM_NO_ENTRY);
    EXPECT(bim_test(desk, "?", BIM_READ, &flag), BIM_SYNTAX);
    EXPECT(flag, KEPT);
}

static void exports(bim_desk *desk)
{
    EXPECT(bim_export(desk, "x", "B", BIM_SYNC_READ), BIM_OK);
    EXPECT(bim_wait(desk, "x"), BIM_TIMED_OUT);
    EXPECT(bim_export(desk, "x", "B", BIM_SYNC_READ), BIM_EXISTS);
    EXPECT(bim_export(desk, "y", "B", 0), BIM_FLAGS);
    EXPECT(bim_export(desk, "y", "C", BIM_SYNC_RW), BIM_NO_ENTRY);
    EXPECT(bim_export(desk, "y", "?", BIM_SYNC_RW), BIM_SYNTAX);
    EXPECT(bim_export(desk, "?", "B", BIM_SYNC_RW), BIM_SYNTAX);
}

static void shows(bim_desk *desk)
{
    bim_row rows[5];
    size_t count = KEPT;

    memset(rows, KEPT, sizeof rows);
    EXPECT(bim_show(desk, "C", rows, 5, &count), BIM_NO_ENTRY);
    EXPECT(bim_show(desk, "?", rows, 5, &count), BIM_SYNTAX);
    EXPECT(count, KEPT);
    EXPECT(bim_show(desk, "B", NULL, 0, &count), BIM_OK);
    EXPECT(count, 4);
    EXPECT(bim_show(desk, "B", rows, 5, &count), BIM_OK);
    EXPECT(count, 4);
    EXPECT(rows[0].usage, BIM_WRITE);
    EXPECT(rows[1].usage, BIM_READ);
    EXPECT(rows[2].usage, BIM_BOOKKEEP);
    EXPECT(rows[3].usage, BIM_BOOKKEEP);
    HOLDS(strcmp(rows[3].timeline, "b") == 0);
    EXPECT(rows[3].point, 9);
    HOLDS(rows[4].timeline[0] == KEPT);
    EXPECT(bim_trim(desk, "B"), BIM_OK);
    EXPECT(bim_trim(desk, "C"), BIM_NO_ENTRY);
    EXPECT(bim_trim(desk, "?"), BIM_SYNTAX);
}

/* The desk of buffer_tests, with file f at point 6 of a. */
static void watches(bim_desk *desk)
{
    uint64_t cookies[4] = { KEPT, KEPT, KEPT, KEPT }, number;
    int was_there = KEPT;

    EXPECT(bim_watch(desk, "?", 1), BIM_SYNTAX);
    EXPECT(bim_watch(desk, "none", 1), BIM_NO_ENTRY);
    EXPECT(bim_watch(desk, "g", 1), BIM_SIGNALLED);
    for (uint64_t cookie = 0; cookie < 6; cookie++)
        EXPECT(bim_watch(desk, "f", UINT64_MAX - cookie), BIM_OK);
    EXPECT(bim_watch(desk, "f", UINT64_MAX), BIM_EXISTS);
    EXPECT(bim_unwatch(desk, UINT64_MAX - 1, &was_there), BIM_OK);
    EXPECT(was_there, 1);
    EXPECT(bim_unwatch(desk, UINT64_MAX - 1, &was_there), BIM_OK);
    EXPECT(was_there, 0);
    EXPECT(bim_take_fired(desk, cookies, 4), 0);
    EXPECT(bim_inc(desk, "a", 1, &number), BIM_OK);

    /* Whatever the room, each cookie comes once, in order. */
    EXPECT(bim_take_fired(desk, cookies, 0), 0);
    EXPECT(cookies[0], KEPT);
    EXPECT(bim_take_fired(desk, cookies, 2), 2);
    HOLDS(cookies[0] == UINT64_MAX && cookies[1] == UINT64_MAX - 2);
    EXPECT(cookies[2], KEPT);
    EXPECT(bim_fence(desk, "last", "a", 9), BIM_OK);
    EXPECT(bim_watch(desk, "last", 1), BIM_OK);
    EXPECT(bim_shut(desk, "a", &number), BIM_OK);
    EXPECT(bim_take_fired(desk, cookies, 4), 4);
    HOLDS(cookies[0] == UINT64_MAX - 3 && cookies[2] == UINT64_MAX - 5);
    EXPECT(cookies[3], 1);
    EXPECT(bim_take_fired(desk, cookies, 4), 0);
    EXPECT(bim_info(desk, "last", &(int32_t){ 0 }, &(bim_fence_info){ .point = 0 }, 1, &(size_t){ 0 }), BIM_OK);
}

/* Reports a desk with objects of each kind. Each array is filled independently of the others, and all rows are
 * counted. */
static void reports(void)
{
    bim_desk desk = BIM_DESK_INIT;
    bim_timeline_row timelines[3];
    bim_file_row files[3];
    bim_buffer_row buffers[3];
    bim_counts counts = { KEPT, KEPT, KEPT };
    uint64_t number;

    EXPECT(bim_desk_open(&desk), BIM_OK);
    EXPECT(bim_report(&desk, NULL, 0, NULL, 0, NULL, 0, &counts), BIM_OK);
    HOLDS(counts.timelines == 0 && counts.files == 0 && counts.buffers == 0);
    EXPECT(bim_timeline(&desk, "a", &number), BIM_OK);
    EXPECT(bim_timeline(&desk, LONGEST, &number), BIM_OK);
    EXPECT(bim_inc(&desk, LONGEST, 5, &number), BIM_OK);
    EXPECT(bim_shut(&desk, LONGEST, &number), BIM_OK);
    EXPECT(bim_fence(&desk, "f", "a", 3), BIM_OK);
    EXPECT(bim_buffer(&desk, "B"), BIM_OK);
    EXPECT(bim_buffer(&desk, "C"), BIM_OK);
    EXPECT(bim_add(&desk, "C", "a", 4, BIM_READ), BIM_OK);

    memset(timelines, KEPT, sizeof timelines);
    memset(files, KEPT, sizeof files);
    memset(buffers, KEPT, sizeof buffers);
    EXPECT(bim_report(&desk, timelines, 1, NULL, 0, buffers, 3, &counts), BIM_OK);
    HOLDS(counts.timelines == 2 && counts.files == 1 && counts.buffers == 2);
    HOLDS(strcmp(timelines[0].timeline, "a") == 0 && timelines[0].value == 0 && timelines[0].is_closed == 0);
    HOLDS(timelines[1].timeline[0] == KEPT && files[0].file[0] == KEPT);
    HOLDS(strcmp(buffers[0].buffer, "B") == 0 && buffers[0].rows == 0);
    HOLDS(strcmp(buffers[1].buffer, "C") == 0 && buffers[1].rows == 2);
    HOLDS(buffers[2].buffer[0] == KEPT);
    EXPECT(bim_report_n(&desk, timelines, 3, files, 3, buffers, 0, &counts), BIM_OK);
    HOLDS(strcmp(timelines[1].timeline, LONGEST) == 0 && timelines[1].value == 5 && timelines[1].is_closed == 1);
    HOLDS(strcmp(files[0].file, "f") == 0 && files[0].fences == 1 && files[0].status == BIM_IS_ACTIVE);
    HOLDS(timelines[2].timeline[0] == KEPT && files[1].file[0] == KEPT);
    bim_desk_close(&desk);
}

/* Runs a line, and expects a number and a text. */
static void expect_line(bim_desk *desk, int at, const char *line, int wanted, const char *answer)
{
    char out[BIM_ANSWER_ROOM];
    size_t length = KEPT;

    memset(out, KEPT, sizeof out);
    expect(__FILE__, at, line, bim_line(desk, line, strlen(line), out, sizeof out, &length), wanted);
    expect(__FILE__, at, line, strcmp(out, answer), 0);
    EXPECT(length, strlen(answer));
    EXPECT(out[length + 1], KEPT);
}
#define LINE(line, wanted, answer) expect_line(&desk, __LINE__, line, wanted, answer)

static void lines(void)
{
    bim_desk desk = BIM_DESK_INIT;
    char longest[BIM_LINE_BYTES + 3], out[BIM_ANSWER_ROOM];
    uint64_t cookies[2];
    size_t length = KEPT;

    EXPECT(bim_desk_open(&desk), BIM_OK);
    LINE("timeline a", BIM_OK, "ok 1\n");
    LINE("timeline a\n", BIM_EXISTS, "err 3 Exists\n");
    LINE("", BIM_OK, "");
    LINE("\n", BIM_OK, "");
    LINE("   # a note\n", BIM_OK, "");
    LINE("nonsense", BIM_SYNTAX, "err 1 Syntax line 1\n");
    LINE("value a\nvalue a", BIM_SYNTAX, "err 1 Syntax line 1\n");
    LINE("# a note\n\n", BIM_SYNTAX, "err 1 Syntax line 1\n");
    EXPECT(bim_line(&desk, "value a\0", 8, out, sizeof out, &length), BIM_SYNTAX);
    EXPECT(bim_line(&desk, "value a?", 7, out, sizeof out, &length), BIM_OK);
    HOLDS(strcmp(out, "ok 0\n") == 0);
    memset(longest, ' ', sizeof longest);
    memcpy(longest, "value a", 7);
    longest[BIM_LINE_BYTES] = '\n';
    longest[BIM_LINE_BYTES + 1] = '\0';
    LINE(longest, BIM_OK, "ok 0\n");
    longest[BIM_LINE_BYTES] = ' ';
    LINE(longest, BIM_LONG_LINE, "err 12 LongLine line 1\n");

    /* A cookie that fires goes to the queue, and nowhere else. */
    LINE("fence f a 3", BIM_OK, "ok\n");
    LINE("watch f 7", BIM_OK, "ok\n");
    LINE("watch f 8", BIM_OK, "ok\n");
    LINE("wait f", BIM_TIMED_OUT, "err 8 TimedOut\n");
    LINE("inc a 18446744073709551615", BIM_OK, "ok 18446744073709551615\n");
    LINE("inc a 1", BIM_OVERFLOW, "err 4 Overflow\n");
    EXPECT(bim_take_fired(&desk, cookies, 2), 2);
    HOLDS(cookies[0] == 7 && cookies[1] == 8);
    LINE("info f", BIM_OK, "ok f 1 1\nfence a sw_sync 3 1\n");
    bim_desk_close(&desk);
}

/* A call with too little room for the answer changes nothing, and stores the part of the text that fits. */
static void rooms(void)
{
    bim_desk desk = BIM_DESK_INIT;
    char out[BIM_ANSWER_ROOM], whole[4 * BIM_ANSWER_ROOM];
    size_t length = KEPT, again;

    EXPECT(bim_line(&desk, "timeline a", 10, out, sizeof out, &length), BIM_NO_ENTRY);
    EXPECT(bim_desk_open(&desk), BIM_OK);
    memset(out, KEPT, sizeof out);
    EXPECT(bim_line(&desk, "timeline a", 10, out, sizeof out - 1, &length), BIM_LIMIT);
    EXPECT(bim_line(&desk, "", 0, out, 0, &length), BIM_LIMIT);
    HOLDS(out[0] == KEPT && length == KEPT);
    LINE("timeline a", BIM_OK, "ok 1\n");
    LINE("timeline b", BIM_OK, "ok 2\n");
    EXPECT(bim_line(&desk, "report\n", 7, out, sizeof out, &length), BIM_OK);
    HOLDS(length >= sizeof out && length < sizeof whole);
    EXPECT(bim_line(&desk, "report", 6, whole, length + 1, &again), BIM_OK);
    EXPECT(again, length);
    EXPECT(strlen(whole), length);
    EXPECT(strlen(out), sizeof out - 1);
    HOLDS(memcmp(out, whole, sizeof out - 1) == 0);
    EXPECT(bim_line(&desk, "report", 6, whole, length, &again), BIM_OK);
    EXPECT(strlen(whole), length - 1);
    bim_desk_close(&desk);
}

/* Exceeds each limit by one. */
static void limits(void)
{
    bim_desk desk = BIM_DESK_INIT;
    char name[BIM_NAME_ROOM];
    uint64_t number;

    EXPECT(bim_desk_open(&desk), BIM_OK);
    for (int i = 0; i <= BIM_CONTEXTS; i++) {
        snprintf(name, sizeof name, "t%d", i);
        EXPECT(bim_timeline(&desk, name, &number), i < BIM_CONTEXTS ? BIM_OK : BIM_LIMIT);
    }
    LINE("timeline more", BIM_LIMIT, "err 6 Limit timelines\n");
    for (int i = 0; i <= BIM_BUFFERS; i++) {
        snprintf(name, sizeof name, "b%d", i);
        EXPECT(bim_buffer(&desk, name), i < BIM_BUFFERS ? BIM_OK : BIM_LIMIT);
    }
    for (int i = 0; i <= BIM_FILES; i++) {
        snprintf(name, sizeof name, "f%d", i);
        EXPECT(bim_fence(&desk, name, "t0", 1), i < BIM_FILES ? BIM_OK : BIM_LIMIT);
    }
    for (int i = 0; i <= BIM_WATCHES; i++)
        EXPECT(bim_watch(&desk, "f0", (uint64_t)i), i < BIM_WATCHES ? BIM_OK : BIM_LIMIT);
    bim_desk_close(&desk);
    HOLDS(desk.at == NULL);
}

/* A name is exactly `length` bytes; the bytes after it don't matter. */
static void names_with_lengths(bim_desk *desk)
{
    bim_fence_info info;
    bim_row row;
    uint64_t number = KEPT;
    int32_t status;
    size_t count;
    int flag;

    EXPECT(bim_timeline_n(desk, "named?", 5, &number), BIM_OK);
    EXPECT(bim_timeline_n(desk, "named", 5, &number), BIM_EXISTS);
    EXPECT(bim_timeline_n(desk, "named\0", 6, &number), BIM_SYNTAX);
    EXPECT(bim_timeline_n(desk, "named", 0, &number), BIM_SYNTAX);
    EXPECT(bim_inc_n(desk, "named?", 5, 2, &number), BIM_OK);
    EXPECT(number, 2);
    EXPECT(bim_value_n(desk, "named?", 5, &number), BIM_OK);
    EXPECT(bim_fence_n(desk, "file?", 4, "named?", 5, 4), BIM_OK);
    EXPECT(bim_fence_n(desk, "two", 3, "named", 5, 3), BIM_OK);
    EXPECT(bim_merge_n(desk, "both!", 4, "file?", 4, "two-", 3), BIM_OK);
    EXPECT(bim_wait_n(desk, "both!", 4), BIM_TIMED_OUT);
    EXPECT(bim_info_n(desk, "both!", 4, &status, &info, 1, &count), BIM_OK);
    HOLDS(strcmp(info.timeline, "named") == 0);
    EXPECT(bim_buffer_n(desk, "buffer?", 6), BIM_OK);
    EXPECT(bim_add_n(desk, "buffer?", 6, "named?", 5, 7, BIM_READ), BIM_OK);
    EXPECT(bim_import_n(desk, "buffer?", 6, "both!", 4, BIM_SYNC_RW), BIM_OK);
    EXPECT(bim_export_n(desk, "out?", 3, "buffer?", 6, BIM_SYNC_RW), BIM_OK);
    EXPECT(bim_test_n(desk, "buffer?", 6, BIM_READ, &flag), BIM_OK);
    EXPECT(flag, 0);
    EXPECT(bim_show_n(desk, "buffer?", 6, &row, 1, &count), BIM_OK);
    EXPECT(row.point, 4);
    EXPECT(bim_trim_n(desk, "buffer?", 6), BIM_OK);
    EXPECT(bim_watch_n(desk, "both!", 4, 3), BIM_OK);
    EXPECT(bim_shut_n(desk, "named?", 5, &number), BIM_OK);
    EXPECT(bim_take_fired(desk, &number, 1), 1);
    EXPECT(number, 3);
    EXPECT(bim_info_n(desk, "both!", 4, &status, &info, 1, &count), BIM_OK);
    EXPECT(status, BIM_IS_CANCELLED);
    EXPECT(info.status, BIM_IS_CANCELLED);
    EXPECT(bim_close_n(desk, "both!", 4), BIM_OK);
}

static void desks(void)
{
    bim_desk desk = BIM_DESK_INIT, moved;

    EXPECT(bim_desk_open(&desk), BIM_OK);
    moved = desk;
    EXPECT(bim_desk_open(&desk), BIM_EXISTS);
    HOLDS(desk.at == moved.at);
    timelines(&desk);
    files(&desk);
    file_infos(&desk);
    waits_and_closes(&desk);
    buffers(&desk);
    buffer_tests(&desk);
    exports(&desk);
    shows(&desk);
    watches(&desk);
    names_with_lengths(&desk);
    bim_desk_close(&desk);
    HOLDS(desk.at == NULL);
    bim_desk_close(&desk);
    EXPECT(bim_wait(&desk, "f"), BIM_NO_ENTRY);
    EXPECT(bim_desk_open(&desk), BIM_OK);
    EXPECT(bim_wait(&desk, "f"), BIM_NO_ENTRY);
    bim_desk_close(&desk);
}

int main(void)
{
    texts();
    closed_desk();
    desks();
    reports();
    lines();
    rooms();
    limits();
    return report("calls");
}
