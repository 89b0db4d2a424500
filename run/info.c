/* Reports on a file, and on everything in sync/info. */
#define _GNU_SOURCE
#include "calls.h"
#include "registry.h"

#include <errno.h>
#include <stdio.h>
#include <stdlib.h>
#include <string.h>
#include <sys/mman.h>

/* Asks the device, with room for all rows. */
static int ask(struct registry *registry, uint64_t number, bim_device_file_info *info)
{
    int error = bim_device_info(&registry->device, number, info, registry->rows, registry->rows_room);
    bim_device_fence_info *more;

    if (error || info->fences <= registry->rows_room)
        return error;
    more = realloc(registry->rows, 2 * info->fences * sizeof *more);
    if (!more)
        return ENOMEM;
    registry->rows = more;
    registry->rows_room = 2 * info->fences;
    return bim_device_info(&registry->device, number, info, registry->rows, registry->rows_room);
}

static void set_row(struct sync_fence_info *to, const bim_device_fence_info *row)
{
    memset(to, 0, sizeof *to);
    memcpy(to->obj_name, row->timeline, sizeof row->timeline);
    memcpy(to->driver_name, row->driver, sizeof row->driver);
    to->status = row->status;
    to->timestamp_ns = row->at;
}

/* Puts the rows that don't fit into the answer in a memory file. */
static int rows_in_file(const struct registry *registry, size_t count, int *gives)
{
    int file = memfd_create("rows", MFD_CLOEXEC);
    struct sync_fence_info *rows;
    bool written = false;

    if (file < 0)
        return errno;
    rows = calloc(count, sizeof *rows);
    for (size_t i = 0; rows && i < count; i++)
        set_row(&rows[i], &registry->rows[i]);
    if (rows)
        written = call_write(file, rows, count * sizeof *rows) == (ssize_t)(count * sizeof *rows);
    free(rows);
    if (written) {
        *gives = file;
        return 0;
    }
    call_close(file);
    return ENOMEM;
}

static int give_rows(const struct registry *registry, struct bim_answer *answer, int *gives)
{
    if (answer->fences > BIM_ROWS)
        return rows_in_file(registry, answer->fences, gives);
    for (size_t i = 0; i < answer->fences; i++)
        set_row(&answer->row[i], &registry->rows[i]);
    answer->rows = answer->fences;
    return 0;
}

/* Without rows the kernel reports the status of the fence that represents all fences of the file: while one is pending,
 * it is active. */
static int status_of_all(struct registry *registry, uint64_t number, int32_t *status)
{
    int32_t signalled;
    int error = bim_device_is_signalled(&registry->device, number, &signalled);

    if (!error && !signalled)
        *status = BIM_IS_ACTIVE;
    return error;
}

int info_of_file(struct registry *registry, const struct bim_request *request, struct object *file,
                 struct bim_answer *answer, int *gives)
{
    bim_device_file_info info;
    int error = ask(registry, file->number, &info);

    if (error)
        return error;
    answer->status = info.status;
    answer->fences = info.fences;
    memcpy(answer->name, info.name, sizeof answer->name);
    if (request->value == 0)
        return status_of_all(registry, file->number, &answer->status);
    if (request->value < info.fences)
        return EINVAL;
    error = give_rows(registry, answer, gives);
    if (!error && info.fences == 1 && info.status != BIM_IS_ACTIVE)
        page_put(registry->page, file->inode, answer);
    return error;
}

static void print_fence(FILE *text, const struct fence *fence, int32_t value)
{
    uint64_t at = fence->cancelled_at;

    if (fence->state == CANCELLED)
        fprintf(text, "  fence error@%llu.%09llu", at / 1000000000ull, at % 1000000000ull);
    else
        fputs("  fence active", text);
    fprintf(text, ": %u / %d\n", fence->seqno, value);
}

/* The kernel shows the low 32 bits of a value. */
static void print_timeline(FILE *text, const struct timeline *timeline, int32_t value)
{
    fprintf(text, "%s: %d\n", timeline->name, value);
    for (const struct fence *fence = timeline->first; fence; fence = fence->next)
        print_fence(text, fence, value);
    fputc('\n', text);
}

/* The kernel lists no sync files below the second heading. */
static void print_all(struct registry *registry, FILE *text)
{
    fputs("objs:\n--------------\n", text);
    for (const struct timeline *timeline = registry->timelines.first; timeline; timeline = timeline->after) {
        uint64_t value = timeline->value;

        if (!timeline->is_closed)
            bim_device_value(&registry->device, timeline->number, &value);
        print_timeline(text, timeline, (int32_t)value);
    }
    fputs("fences:\n--------------\n", text);
}

/* Stores the text in a memory file, opened read-only and positioned at its start. */
static int store(const char *text, size_t length, int *gives)
{
    int file = memfd_create("info", MFD_CLOEXEC);

    if (file < 0)
        return errno;
    if (call_write(file, text, length) != (ssize_t)length || syscall(SYS_lseek, file, 0L, SEEK_SET) != 0) {
        call_close(file);
        return ENOMEM;
    }
    *gives = call_open_again(file);
    if (*gives >= 0)
        call_close(file);
    else
        *gives = file;
    return 0;
}

int info_text(struct registry *registry, int *gives)
{
    char *bytes = NULL;
    size_t length;
    FILE *text = open_memstream(&bytes, &length);
    int error = 0;

    if (text)
        print_all(registry, text);
    if (!text || fclose(text) != 0)
        error = ENOMEM;
    if (!error)
        error = store(bytes, length, gives);
    free(bytes);
    return error;
}
