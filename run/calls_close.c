/* close(2) and its relatives. The last close of a timeline cancels its fences before it returns, so the service hears
 * of it first. */
#define _GNU_SOURCE
#include "calls.h"
#include "shim.h"
#include "step.h"

#include <errno.h>
#include <limits.h>
#include <stdio.h>

/* What is closed, if the service has to hear of it. */
struct closing {
    uint64_t inode; /* or 0, or BIM_ANY */
    bool is_step;
};

static struct closing closing(int file)
{
    struct closing closing = { 0, false };
    enum bim_mark mark = shim_mark(file, &closing.inode);

    if ((mark != BIM_TIMELINE_MARK && mark != BIM_FILE_MARK && mark != BIM_BUFFER_MARK) ||
        !shim_hears_closing(mark == BIM_TIMELINE_MARK))
        return (struct closing){ 0, false };
    closing.is_step = mark == BIM_TIMELINE_MARK && step_is_on();
    if (closing.is_step)
        step_begin(STEP_SHUT);
    return closing;
}

static void tell(struct closing closing)
{
    struct bim_request request = { .op = BIM_OP_GONE, .a = closing.inode };
    struct step step = { .kind = STEP_SHUT, .of = closing.inode, .request = &request };
    struct bim_answer answer;
    int before = errno;

    if (closing.inode)
        step.error = shim_ask(&request, -1, &answer, NULL);
    if (closing.is_step) {
        step.status = step.error ? 0 : answer.status;
        step.answer = step.error ? NULL : &answer;
        step_end(&step);
    }
    errno = before;
}

void shim_close(int file)
{
    struct closing closed = closing(file);

    call_close(file);
    tell(closed);
}

EXPORT int close(int file)
{
    NEXT(close);
    struct closing closed;
    int result;

    if (shim_is_own(file))
        return shim_result(EBADF);
    closed = closing(file);
    result = next(file);
    if (result == 0)
        tell(closed);
    return result;
}

/* The C library closes a stream's descriptor without calling close(2). */
EXPORT int fclose(FILE *stream)
{
    NEXT(fclose);
    int before = errno, result;
    struct closing closed = closing(fileno(stream));

    errno = before;
    result = next(stream);
    tell(closed);
    return result;
}

EXPORT int dup2(int file, int other)
{
    NEXT(dup2);
    struct closing closed = { 0, false };
    int result;

    if (shim_is_own(other))
        return shim_result(EBUSY);
    if (file != other)
        closed = closing(other);
    result = next(file, other);
    if (result >= 0)
        tell(closed);
    return result;
}

EXPORT int dup3(int file, int other, int flags)
{
    NEXT(dup3);
    struct closing closed = closing(other);
    int result;

    if (shim_is_own(other))
        return shim_result(EBUSY);
    result = next(file, other, flags);
    if (result >= 0)
        tell(closed);
    return result;
}

/* Closes a range of descriptors by whichever call the kernel has. */
static int close_numbers(unsigned first, unsigned last, int flags)
{
    long most = sysconf(_SC_OPEN_MAX);

    if (syscall(SYS_close_range, first, last, flags) == 0)
        return 0;
    if (errno != ENOSYS || flags)
        return -1;
    for (unsigned file = first; file <= last && file < most; file++)
        call_close(file);
    return 0;
}

/* Closes a range of descriptors except the service's own in this process, and has all closings done. */
static int close_around(unsigned first, unsigned last, int flags)
{
    unsigned begin = first, above = shim_above_own();
    int result = 0;

    for (unsigned file = first; file <= last && file < above; file++) {
        if (!shim_is_own(file))
            continue;
        if (file > begin)
            result |= close_numbers(begin, file - 1, flags);
        begin = file + 1;
    }
    if (begin <= last)
        result |= close_numbers(begin, last, flags);
    if (above > 0)
        tell((struct closing){ BIM_ANY, false });
    return result;
}

EXPORT int close_range(unsigned first, unsigned last, int flags)
{
    return first > last ? shim_result(EINVAL) : close_around(first, last, flags);
}

EXPORT void closefrom(int first)
{
    close_around(first < 0 ? 0 : first, UINT_MAX, 0);
}
