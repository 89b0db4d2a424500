/* DMA_BUF_IOCTL_SYNC: the beginning of an access of a buffer waits for fences, and with --check its end must not find any
 * pending. */
#define _GNU_SOURCE
#include "calls.h"
#include "check.h"
#include "follow.h"
#include "loss.h"
#include "shim.h"
#include "step.h"
#include "user.h"

#include <errno.h>
#include <linux/dma-buf.h>

/* Waits as the kernel's interruptible wait does: in a read, which a signal handler interrupts unless it was set with
 * SA_RESTART. */
static int wait_for_byte(int file)
{
    char byte;
    ssize_t length = call_read(file, &byte, 1);

    if (length == 0)
        loss_of_service();
    return length < 0 ? errno : 0;
}

/* Waits until a buffer is ready, or only checks. Returns 0, EAGAIN if it isn't ready, or EINTR. */
static int poll_buffer(int buffer, short event, int milliseconds)
{
    struct pollfd file = { buffer, event, 0 };
    int count = call_poll(&file, 1, milliseconds);

    if (count > 0)
        loss_look(&file, 1);
    return count < 0 ? errno : file.revents & event ? 0 : EAGAIN;
}

/* Waits for the fences of an access. If the process has no descriptor left for a file of them, polls the buffer, which
 * any signal handler interrupts. */
static int wait_for(int buffer, short event, struct bim_request *request)
{
    struct step wait = { .kind = STEP_WAIT, .status = 1, .is_second = true };
    int file = step_ask_for_file(STEP_EXPORT, request);

    if (file < 0)
        return errno == EMFILE ? poll_buffer(buffer, event, -1) : errno;
    if (shim_is_traced())
        shim_wait(file, true);
    follow_wait(true);
    wait.error = wait_for_byte(file);
    follow_wait(false);
    if (shim_is_traced())
        shim_wait(file, false);
    if (step_is_on()) {
        step_continue(STEP_WAIT);
        shim_mark(file, &wait.of);
        step_end(&wait);
    }
    shim_close(file);
    return wait.error;
}

/* Ends an access: notes whether it had to wait for a fence. */
static void end_access(struct bim_request *request)
{
    struct bim_answer answer;
    bool writes = request->flags & DMA_BUF_SYNC_WRITE;

    request->op = BIM_OP_TEST;
    if (step_ask(STEP_TEST, request, -1, &answer, NULL) == 0 && answer.status == 0 && check_is_on())
        check_note(writes);
}

int shim_access(int file, uint64_t buffer, void *arg)
{
    struct bim_request request = { .op = BIM_OP_EXPORT, .a = buffer };
    struct dma_buf_sync data;
    int error = user_get(&data, arg, sizeof data);
    short event;

    if (error)
        return error;
    request.flags = data.flags & DMA_BUF_SYNC_RW;
    if (data.flags & ~(uint64_t)DMA_BUF_SYNC_VALID_FLAGS_MASK || !request.flags)
        return EINVAL;
    event = request.flags & DMA_BUF_SYNC_WRITE ? POLLOUT : POLLIN;
    if (data.flags & DMA_BUF_SYNC_END) {
        if (check_is_on() || step_is_on())
            end_access(&request);
        return 0;
    }
    if (!step_is_on() && poll_buffer(file, event, 0) == 0)
        return 0;
    return wait_for(file, event, &request);
}
