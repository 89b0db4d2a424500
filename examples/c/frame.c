/* A frame on a desk: a renderer draws into a buffer, and a display shows the buffer once it is drawn.
 *
 * cc frame.c $(pkg-config --cflags --libs bimphlai) -o frame
 */
#include <bimphlai.h>
#include <inttypes.h>
#include <stdio.h>
#include <stdlib.h>

/* Ends the program if a call is refused. */
static void check(int refusal, const char *call)
{
    if (refusal == BIM_OK)
        return;
    fprintf(stderr, "%s: refused with %d %s\n", call, refusal, bim_refusal_name(refusal));
    exit(1);
}
#define CHECK(call) check(call, #call)

/* The display shows a frame once its file is signalled. */
static void refresh(bim_desk *desk, const char *file)
{
    int refusal = bim_wait(desk, file);

    if (refusal == BIM_TIMED_OUT) {
        printf("%s is late\n", file);
        return;
    }
    CHECK(refusal);
    printf("%s is shown\n", file);
}

/* Prints the fences of a file. */
static void print_fences(bim_desk *desk, const char *file)
{
    bim_fence_info rows[BIM_CONTEXTS];
    int32_t status;
    size_t count;

    CHECK(bim_info(desk, file, &status, rows, BIM_CONTEXTS, &count));
    printf("%s has status %" PRId32 " and %zu fences\n", file, status, count);
    for (size_t i = 0; i < count; i++)
        printf("  %s %s %" PRIu64 " %" PRId32 "\n", rows[i].timeline, rows[i].driver, rows[i].point, rows[i].status);
}

int main(void)
{
    bim_desk desk = BIM_DESK_INIT;
    uint64_t context, value;

    CHECK(bim_desk_open(&desk));
    CHECK(bim_timeline(&desk, "gpu", &context));
    CHECK(bim_timeline(&desk, "copy", &context));
    CHECK(bim_buffer(&desk, "window"));

    /* Two jobs write to the buffer. They end at point 1 of their timelines. */
    CHECK(bim_add(&desk, "window", "gpu", 1, BIM_WRITE));
    CHECK(bim_add(&desk, "window", "copy", 1, BIM_WRITE));

    /* The display gets a file of the fences for which a reader has to wait. */
    CHECK(bim_export(&desk, "frame", "window", BIM_SYNC_READ));
    refresh(&desk, "frame");

    CHECK(bim_inc(&desk, "gpu", 1, &value));
    print_fences(&desk, "frame");
    refresh(&desk, "frame");

    CHECK(bim_inc(&desk, "copy", 1, &value));
    refresh(&desk, "frame");

    bim_desk_close(&desk);
    return 0;
}
