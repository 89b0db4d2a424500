/* A device's memory depends only on the objects that are alive: released objects leave nothing behind, however many
 * there were.
 *
 * Link with --wrap=malloc, --wrap=realloc and --wrap=free.
 */
#include <bimphlai.h>

#include "expect.h"
#include <malloc.h>
#include <stddef.h>
#include <stdlib.h>

/* Rounds of each kind, the first of which need as much memory as any later ones; and how many objects of each kind are
 * alive at once. */
enum { ROUNDS = 200000, FIRST = 2000, ALIVE = 50000 };

/* The fences of a large file, the files of a large wake, and a bound on the bytes that a few fences need. */
enum { FENCES = 1000, WOKEN = 20000, FEW_BYTES = 1000 };

void *__real_malloc(size_t size);
void *__real_realloc(void *block, size_t size);
void __real_free(void *block);

/* The bytes that are allocated, and their maximum so far. */
static long long bytes, most;

static void count(void *block, int sign)
{
    bytes += sign * (long long)malloc_usable_size(block);
    if (bytes > most)
        most = bytes;
}

void *__wrap_malloc(size_t size)
{
    void *block = __real_malloc(size);

    count(block, 1);
    return block;
}

void *__wrap_realloc(void *block, size_t size)
{
    count(block, -1);
    void *moved = __real_realloc(block, size);

    count(moved ? moved : block, 1);
    return moved;
}

void __wrap_free(void *block)
{
    count(block, -1);
    __real_free(block);
}

static bim_device device = BIM_DEVICE_INIT;
static uint64_t timeline, file, buffer;

static void one_timeline(void)
{
    uint64_t number;

    EXPECT(bim_device_timeline(&device, "task", &number), 0);
    EXPECT(bim_device_release(&device, number, 1), 0);
}

/* The file waits until its timeline is closed, and is then among the woken. */
static void cancelled_file(void)
{
    uint64_t number, waiting, woken;

    EXPECT(bim_device_timeline(&device, "task", &number), 0);
    EXPECT(bim_device_fence(&device, number, 1, 1, &waiting), 0);
    EXPECT(bim_device_release(&device, number, 2), 0);
    EXPECT(bim_device_take_woken(&device, &woken, 1), 1);
    EXPECT(bim_device_release(&device, waiting, 3), 0);
}

/* A file that signals is released before it is taken. */
static void signalled_merge(void)
{
    static uint32_t point;
    uint64_t fence, merged;
    bim_device_raised raised;

    EXPECT(bim_device_fence(&device, timeline, ++point, 1, &fence), 0);
    EXPECT(bim_device_merge(&device, fence, file, "merge", &merged), 0);
    EXPECT(bim_device_inc(&device, timeline, 1, 2, &raised), 0);
    EXPECT(bim_device_release(&device, fence, 3), 0);
    EXPECT(bim_device_release(&device, merged, 3), 0);
}

/* The buffer stays, and the fences put into it signal. */
static void signalled_import(void)
{
    static uint32_t point;
    uint64_t other, fence, export;

    EXPECT(bim_device_timeline(&device, "task", &other), 0);
    EXPECT(bim_device_fence(&device, other, ++point, 1, &fence), 0);
    EXPECT(bim_device_import(&device, buffer, fence, BIM_SYNC_WRITE), 0);
    EXPECT(bim_device_export(&device, buffer, BIM_SYNC_READ, &export), 0);
    EXPECT(bim_device_release(&device, fence, 1), 0);
    EXPECT(bim_device_release(&device, export, 1), 0);
    EXPECT(bim_device_release(&device, other, 1), 0);
}

static void one_buffer(void)
{
    uint64_t number;

    EXPECT(bim_device_buffer(&device, 1, &number), 0);
    EXPECT(bim_device_import(&device, number, file, BIM_SYNC_READ), 0);
    EXPECT(bim_device_release(&device, number, 1), 0);
}

static void make_rounds(void (*round)(void), int rounds)
{
    for (int i = 0; i < rounds; i++)
        round();
}

/* Expects that the first rounds need as much memory at a time as all later ones. */
static void stays_flat(void (*round)(void))
{
    most = bytes;
    make_rounds(round, FIRST);
    long long first = most;

    make_rounds(round, ROUNDS);
    EXPECT(most, first);
}

/* Expects that many objects of each kind, once released, give back most of their memory; only the room of the tables
 * stays. */
static void gives_all_back(void)
{
    static uint64_t numbers[4 * ALIVE];
    long long before = bytes;

    for (int i = 0; i < ALIVE; i++) {
        uint64_t *four = &numbers[4 * i];
        EXPECT(bim_device_timeline(&device, "task", &four[0]), 0);
        EXPECT(bim_device_fence(&device, four[0], 1, 1, &four[1]), 0);
        EXPECT(bim_device_merge(&device, four[1], file, "merge", &four[2]), 0);
        EXPECT(bim_device_buffer(&device, 1, &four[3]), 0);
        EXPECT(bim_device_import(&device, four[3], four[2], BIM_SYNC_WRITE), 0);
    }
    long long alive = bytes;
    for (int i = 0; i < 4 * ALIVE; i++)
        EXPECT(bim_device_release(&device, numbers[(i + ALIVE) % (4 * ALIVE)], 2), 0);
    HOLDS(bytes - before < (alive - before) / 2);
}

/* Expects that a buffer keeps no room for a file's signalled fences: one of FENCES fences is pending. */
static void keeps_room_for_what_is_pending(void)
{
    static uint64_t timelines[FENCES];
    uint64_t fence, merged, all = file, into;

    for (int i = 0; i < FENCES; i++) {
        EXPECT(bim_device_timeline(&device, "task", &timelines[i]), 0);
        EXPECT(bim_device_fence(&device, timelines[i], 1, 1, &fence), 0);
        EXPECT(bim_device_merge(&device, all, fence, "all", &merged), 0);
        EXPECT(bim_device_release(&device, fence, 1), 0);
        if (all != file)
            EXPECT(bim_device_release(&device, all, 1), 0);
        all = merged;
    }
    for (int i = 0; i < FENCES; i++)
        EXPECT(bim_device_release(&device, timelines[i], 2), 0);
    EXPECT(bim_device_buffer(&device, 3, &into), 0);
    long long before = bytes;

    EXPECT(bim_device_import(&device, into, all, BIM_SYNC_WRITE), 0);
    HOLDS(bytes > before && bytes - before < FEW_BYTES);
    EXPECT(bim_device_release(&device, into, 4), 0);
    EXPECT(bim_device_release(&device, all, 4), 0);
}

/* Expects that a device keeps less than a byte for each file of a large wake, once all are taken and released. */
static void keeps_no_room_for_what_was_woken(void)
{
    static uint64_t files[WOKEN], woken[WOKEN];
    bim_device fresh = BIM_DEVICE_INIT;
    bim_device_raised raised;
    uint64_t task;
    long long before = bytes;

    EXPECT(bim_device_open(&fresh), 0);
    EXPECT(bim_device_timeline(&fresh, "task", &task), 0);
    for (int i = 0; i < WOKEN; i++)
        EXPECT(bim_device_fence(&fresh, task, 1, 1, &files[i]), 0);
    EXPECT(bim_device_inc(&fresh, task, 1, 2, &raised), 0);
    EXPECT(bim_device_take_woken(&fresh, woken, WOKEN), WOKEN);
    for (int i = 0; i < WOKEN; i++)
        EXPECT(bim_device_release(&fresh, files[i], 3), 0);
    HOLDS(bytes - before < WOKEN);
    bim_device_close(&fresh);
}

int main(void)
{
    EXPECT(bim_device_open(&device), 0);
    EXPECT(bim_device_timeline(&device, "task", &timeline), 0);
    EXPECT(bim_device_timeline(&device, "task", &file), 0);
    EXPECT(bim_device_fence(&device, file, 1, 1, &file), 0);
    EXPECT(bim_device_buffer(&device, 1, &buffer), 0);
    stays_flat(one_timeline);
    stays_flat(cancelled_file);
    stays_flat(signalled_merge);
    stays_flat(signalled_import);
    stays_flat(one_buffer);
    gives_all_back();
    keeps_room_for_what_is_pending();
    keeps_no_room_for_what_was_woken();
    bim_device_close(&device);
    EXPECT(bytes, 0);
    return report("flat");
}
