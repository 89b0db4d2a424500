/* ioctl(2) on our descriptors: the calls of Linux's sw_sync, sync files, dma-bufs and heaps. */
#define _GNU_SOURCE
#include "calls.h"
#include "ioctls.h"
#include "shim.h"
#include "step.h"
#include "user.h"

#include <errno.h>
#include <sched.h>
#include <stdarg.h>
#include <string.h>
#include <sys/ioctl.h>

enum { SOCKET_CALLS = 0x89 }; /* the type of SIOCATMARK and other socket calls */

/* Asks for a new descriptor, and stores it in the caller's struct. Closes it again if it can't be stored. */
static int give_file(enum step_kind kind, struct bim_request *request, void *arg, void *data, size_t size, int32_t *field)
{
    struct bim_answer answer;
    int given, error = step_ask(kind, request, -1, &answer, &given);

    if (error)
        return error;
    memcpy(field, &given, sizeof given);
    error = user_put(arg, data, size);
    if (error)
        shim_close(given);
    return error;
}

static int create_fence(uint64_t timeline, void *arg)
{
    struct bim_request request = { .op = BIM_OP_FENCE, .a = timeline };
    struct create_fence data;
    int error = user_get(&data, arg, sizeof data);

    if (error)
        return error;
    request.value = data.value;
    return give_file(STEP_FENCE, &request, arg, &data, sizeof data, &data.fence);
}

static int inc(uint64_t timeline, void *arg)
{
    struct bim_request request = { .op = BIM_OP_INC, .a = timeline };
    struct bim_answer answer;
    int error = user_get(&request.value, arg, sizeof request.value);

    return error ? error : step_ask(STEP_INC, &request, -1, &answer, NULL);
}

static int merge(uint64_t file, void *arg)
{
    struct bim_request request = { .op = BIM_OP_MERGE, .a = file };
    struct sync_merge_data data;
    int error = user_get(&data, arg, sizeof data);

    if (error)
        return error;
    if (data.flags || data.pad)
        return EINVAL;
    if (shim_mark(data.fd2, &request.b) != BIM_FILE_MARK)
        request.b = 0;
    /* Like the kernel, stores the name back as it was read, with its last byte cleared. */
    data.name[sizeof data.name - 1] = 0;
    strcpy(request.name, data.name);
    return give_file(STEP_MERGE, &request, arg, &data, sizeof data, &data.fence);
}

/* Stores the rows of an answer. Many rows come in a memory file. */
static int put_rows(const struct sync_file_info *data, const struct bim_answer *answer, int rows_file)
{
    char *to = (char *)(uintptr_t)data->sync_fence_info;
    struct sync_fence_info row;

    if (rows_file < 0)
        return user_put(to, answer->row, answer->rows * sizeof row);
    for (size_t at = 0; at < answer->fences * sizeof row; at += sizeof row) {
        if (syscall(SYS_pread64, rows_file, &row, sizeof row, at) != sizeof row)
            return ENOMEM;
        if (user_put(to + at, &row, sizeof row))
            return EFAULT;
    }
    return 0;
}

static int put_info(struct sync_file_info *data, const struct bim_answer *answer, int rows_file, void *arg)
{
    int error = data->num_fences ? put_rows(data, answer, rows_file) : 0;

    if (error)
        return error;
    memcpy(data->name, answer->name, sizeof data->name);
    data->status = answer->status;
    data->num_fences = answer->fences;
    return user_put(arg, data, sizeof *data);
}

/* Asks for the information of a file, which is cached once it has signalled. */
static int ask_info(struct bim_request *request, struct bim_answer *answer, int *rows_file)
{
    struct step step = { .kind = STEP_INFO, .of = request->a };

    step_begin(STEP_INFO);
    if (!shim_recall(request->a, answer)) {
        step.error = shim_ask(request, -1, answer, rows_file);
        step.request = request;
        step.answer = step.error ? NULL : answer;
    }
    step.status = step.error ? 0 : answer->status;
    step_end(&step);
    return step.error;
}

static int file_info(uint64_t file, void *arg)
{
    struct bim_request request = { .op = BIM_OP_INFO, .a = file };
    struct sync_file_info data;
    struct bim_answer answer;
    int rows_file = -1, error = user_get(&data, arg, sizeof data);

    if (error)
        return error;
    if (data.flags || data.pad)
        return EINVAL;
    request.value = data.num_fences;
    error = ask_info(&request, &answer, &rows_file);
    if (!error)
        error = put_info(&data, &answer, rows_file, arg);
    if (rows_file >= 0)
        call_close(rows_file);
    /* A program that asks in a loop until a file signals must yield to the thread that will signal it. */
    if (!error && data.status == 0)
        sched_yield();
    return error;
}

static int set_deadline(uint64_t file, void *arg)
{
    struct set_deadline data;
    int error = user_get(&data, arg, sizeof data);

    (void)file;
    return error ? error : data.pad ? EINVAL : 0;
}

static int allocate(void *arg)
{
    struct bim_request request = { .op = BIM_OP_BUFFER };
    struct dma_heap_allocation_data data;
    uint64_t page = sysconf(_SC_PAGESIZE);
    int32_t given;
    int error = user_get(&data, arg, sizeof data);

    if (error)
        return error;
    if (data.fd || data.fd_flags & ~(uint32_t)(O_CLOEXEC | O_ACCMODE) || data.heap_flags || data.len == 0 ||
        data.len > UINT64_MAX - page)
        return EINVAL;
    request.size = (data.len + page - 1) / page * page;
    request.flags = data.fd_flags & O_ACCMODE;
    given = step_ask_for_file(STEP_BUFFER, &request);
    if (given < 0)
        return errno;
    if (!(data.fd_flags & O_CLOEXEC))
        syscall(SYS_fcntl, given, F_SETFD, 0);
    data.fd = given;
    error = user_put(arg, &data, sizeof data);
    if (error)
        shim_close(given);
    return error;
}

static int set_name(uint64_t buffer, const char *arg)
{
    struct bim_request request = { .op = BIM_OP_NAME, .a = buffer };
    struct bim_answer answer;
    int error = user_get_text(request.name, arg, sizeof request.name);

    return error ? error : shim_ask(&request, -1, &answer, NULL);
}

static int export_file(uint64_t buffer, void *arg)
{
    struct bim_request request = { .op = BIM_OP_EXPORT, .a = buffer };
    struct sync_file_of_buffer data;
    int error = user_get(&data, arg, sizeof data);

    if (error)
        return error;
    /* The kernel checks these before it takes a number for the descriptor. */
    if (data.flags & ~DMA_BUF_SYNC_RW || !data.flags)
        return EINVAL;
    request.flags = data.flags;
    return give_file(STEP_EXPORT, &request, arg, &data, sizeof data, &data.fd);
}

static int import_file(int file, uint64_t buffer, void *arg)
{
    struct bim_request request = { .op = BIM_OP_IMPORT, .a = buffer };
    struct sync_file_of_buffer data;
    struct bim_answer answer;
    int error = user_get(&data, arg, sizeof data);

    if (error)
        return error;
    request.flags = data.flags;
    if (shim_mark(data.fd, &request.b) != BIM_FILE_MARK)
        request.b = 0;
    return step_ask(STEP_IMPORT, &request, file, &answer, NULL);
}

/* The kernel takes a number for the new descriptor before it checks anything else, so a lack of numbers comes first. */
static int after_number(int error)
{
    int number = error ? syscall(SYS_eventfd2, 0, O_CLOEXEC) : -1;

    if (error && number < 0)
        return errno;
    if (number >= 0)
        call_close(number);
    return error;
}

static int on_timeline(uint64_t inode, unsigned long call, void *arg)
{
    switch (call) {
    case CREATE_FENCE: return after_number(create_fence(inode, arg));
    case INC: return inc(inode, arg);
    case FIONREAD: return user_put(arg, &(int){ 0 }, sizeof(int)); /* as of an empty file */
    default: return ENOTTY;
    }
}

static int on_file(uint64_t inode, unsigned long call, void *arg)
{
    switch (call) {
    case SYNC_IOC_MERGE: return after_number(merge(inode, arg));
    case SYNC_IOC_FILE_INFO: return file_info(inode, arg);
    case SET_DEADLINE: return set_deadline(inode, arg);
    default: return ENOTTY;
    }
}

static int on_buffer(int file, uint64_t inode, unsigned long call, void *arg)
{
    switch (call) {
    case DMA_BUF_IOCTL_SYNC: return shim_access(file, inode, arg);
    case DMA_BUF_SET_NAME_A:
    case DMA_BUF_SET_NAME_B: return set_name(inode, arg);
    case EXPORT_SYNC_FILE: return export_file(inode, arg);
    case IMPORT_SYNC_FILE: return import_file(file, inode, arg);
    default: return ENOTTY;
    }
}

static int on_heap(unsigned long call, void *arg)
{
    return call == DMA_HEAP_IOCTL_ALLOC ? allocate(arg) : EINVAL;
}

/* Returns whether a call is one of those above, or one that only pipes and sockets take. All others go to the kernel at
 * once. */
static bool may_be_served(unsigned long call)
{
    if (call == FIONREAD || call == TIOCOUTQ)
        return true;
    switch (_IOC_TYPE(call)) {
    case 'W':
    case '>':
    case 'b':
    case 'u':
    case 'H':
    case SOCKET_CALLS: return true;
    default: return false;
    }
}

static int answer(int file, enum bim_mark mark, uint64_t inode, unsigned long call, void *arg)
{
    switch (mark) {
    case BIM_TIMELINE_MARK: return on_timeline(inode, call, arg);
    case BIM_FILE_MARK: return on_file(inode, call, arg);
    case BIM_BUFFER_MARK: return on_buffer(file, inode, call, arg);
    case BIM_HEAP_MARK: return on_heap(call, arg);
    default: return ENOTTY;
    }
}

/* A heap recognises its call by the number only, whatever the type, and takes no other. */
static int after_kernel(int file, int result)
{
    uint64_t inode;

    if (result < 0 && errno == ENOTTY)
        errno = shim_mark(file, &inode) == BIM_HEAP_MARK ? EINVAL : ENOTTY;
    return result;
}

EXPORT int ioctl(int file, unsigned long call, ...)
{
    NEXT(ioctl);
    uint64_t inode;
    enum bim_mark mark;
    va_list words;
    void *arg;

    va_start(words, call);
    arg = va_arg(words, void *);
    va_end(words);
    call = (uint32_t)call;
    if (!may_be_served(call))
        return after_kernel(file, next(file, call, arg));
    mark = shim_mark(file, &inode);
    if (!mark)
        return next(file, call, arg);
    return mark == BIM_UDMABUF_MARK ? shim_udmabuf(call, arg) : shim_result(answer(file, mark, inode, call, arg));
}
