/* The library frees the memory that it allocates: some of it with each handle that is closed, and all of it with the
 * last. A desk keeps the memory of a closed file for the next file.
 *
 * Link with --wrap=malloc, --wrap=realloc and --wrap=free.
 */
#include <bimphlai.h>

#include "expect.h"
#include <stddef.h>

void *__real_malloc(size_t size);
void *__real_realloc(void *block, size_t size);
void __real_free(void *block);

/* The number of allocated blocks. */
static long long blocks;

void *__wrap_malloc(size_t size)
{
    void *block = __real_malloc(size);

    blocks += block != NULL;
    return block;
}

void *__wrap_realloc(void *block, size_t size)
{
    void *moved = __real_realloc(block, size);

    blocks += block == NULL && moved != NULL;
    return moved;
}

void __wrap_free(void *block)
{
    blocks -= block != NULL;
    __real_free(block);
}

/* Expects that a call frees some blocks. */
#define GIVES_BACK(call) \
    do { \
        long long taken = blocks; \
        call; \
        HOLDS(blocks < taken); \
    } while (0)

/* Expects that a call allocates no block. */
#define TAKES_NONE(call) \
    do { \
        long long taken = blocks; \
        call; \
        HOLDS(blocks == taken); \
    } while (0)

static void close_a_desk(void)
{
    bim_desk desk = BIM_DESK_INIT;
    uint64_t value;

    EXPECT(bim_desk_open(&desk), BIM_OK);
    EXPECT(bim_timeline(&desk, "a", &value), BIM_OK);
    EXPECT(bim_timeline(&desk, "b", &value), BIM_OK);
    EXPECT(bim_fence(&desk, "f", "a", 5), BIM_OK);
    EXPECT(bim_fence(&desk, "g", "b", 7), BIM_OK);
    EXPECT(bim_merge(&desk, "m", "f", "g"), BIM_OK);
    EXPECT(bim_buffer(&desk, "B"), BIM_OK);
    EXPECT(bim_import(&desk, "B", "m", BIM_SYNC_WRITE), BIM_OK);
    EXPECT(bim_export(&desk, "x", "B", BIM_SYNC_READ), BIM_OK);
    EXPECT(bim_watch(&desk, "m", 1), BIM_OK);
    EXPECT(bim_watch(&desk, "f", 2), BIM_OK);
    EXPECT(bim_inc(&desk, "a", 5, &value), BIM_OK);
    for (int times = 0; times < 2; times++) {
        EXPECT(bim_close(&desk, "m"), BIM_OK);
        EXPECT(bim_merge(&desk, "m", "f", "g"), BIM_OK);
    }
    EXPECT(bim_close(&desk, "m"), BIM_OK);
    TAKES_NONE(EXPECT(bim_merge(&desk, "m", "f", "g"), BIM_OK));
    GIVES_BACK(bim_desk_close(&desk));
}

static void close_a_device(void)
{
    bim_device device = BIM_DEVICE_INIT;
    uint64_t a, b, of_a, of_b, both, buffer, waits;
    bim_device_raised raised;

    EXPECT(bim_device_open(&device), 0);
    EXPECT(bim_device_timeline(&device, "a", &a), 0);
    EXPECT(bim_device_timeline(&device, "b", &b), 0);
    EXPECT(bim_device_fence(&device, a, 5, 1, &of_a), 0);
    EXPECT(bim_device_fence(&device, b, 7, 1, &of_b), 0);
    EXPECT(bim_device_merge(&device, of_a, of_b, "both", &both), 0);
    EXPECT(bim_device_buffer(&device, 1, &buffer), 0);
    EXPECT(bim_device_import(&device, buffer, both, BIM_SYNC_WRITE), 0);
    EXPECT(bim_device_export(&device, buffer, BIM_SYNC_READ, &waits), 0);
    EXPECT(bim_device_inc(&device, a, 5, 2, &raised), 0);
    GIVES_BACK(EXPECT(bim_device_release(&device, both, 3), 0));
    GIVES_BACK(EXPECT(bim_device_release(&device, buffer, 3), 0));
    EXPECT(bim_device_release(&device, b, 3), 0);
    GIVES_BACK(bim_device_close(&device));
}

int main(void)
{
    for (int round = 0; round < 3; round++) {
        long long taken = blocks;
        close_a_desk();
        EXPECT(blocks, taken);
        close_a_device();
        EXPECT(blocks, taken);
    }
    return report("frees");
}
