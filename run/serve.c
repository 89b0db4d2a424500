/* Serves each kind of request. */
#include "calls.h"
#include "registry.h"

#include <errno.h>
#include <string.h>

/* A new file is readable at once if it has signalled. If the file isn't kept, its fences are released too. */
static int finish_file(struct registry *registry, struct object *file, int error, int *gives)
{
    struct fences fences;
    int32_t signalled = 0;

    if (!error)
        error = record_array(&file->fences, file->number, registry->trace);
    if (!error)
        error = bim_device_is_signalled(&registry->device, file->number, &signalled);
    if (!error && signalled)
        endpoint_signal(file->endpoint);
    fences = file->fences;
    error = registry_finish(registry, file, error, gives);
    if (error)
        record_drop(&fences, false, registry->trace);
    return error;
}

/* Finishes a file of pending points, made by a merge or an export. */
static int finish_pending(struct registry *registry, struct object *file, int error, int *gives)
{
    if (!error)
        error = registry_fences(registry, file->number, &file->fences);
    if (error)
        return registry_finish(registry, file, error, gives);
    return finish_file(registry, file, 0, gives);
}

static int serve_timeline(struct registry *registry, const struct bim_request *request, int *gives)
{
    struct object *object;
    size_t length = strnlen(request->name, BIM_TASK_ROOM - 1);
    int error = registry_begin(registry, TIMELINE, request, &object, gives);

    if (error)
        return error;
    error = bim_device_timeline_n(&registry->device, request->name, length, &object->number);
    if (!error) {
        object->timeline = record_timeline(&registry->timelines, object->number, request->name, length);
        error = object->timeline ? 0 : ENOMEM;
    }
    /* The kernel's timeline has no poll operation, so it is always readable. */
    endpoint_signal(object->endpoint);
    return registry_finish(registry, object, error, gives);
}

static int serve_fence(struct registry *registry, const struct bim_request *request, struct object *object,
                       struct bim_answer *answer, int *gives)
{
    bim_device_point point;
    struct object *file;
    int error = registry_begin(registry, SYNC_FILE, request, &file, gives);

    if (error)
        return error;
    error = bim_device_fence(&registry->device, object->number, request->value, registry->now, &file->number);
    if (!error)
        error = bim_device_fence_of(&registry->device, file->number, 0, &point);
    if (error)
        return registry_finish(registry, file, error, gives);
    answer->point = point.value;
    error = record_fence(&file->fences, object->timeline, request->value, &point, registry->trace);
    return finish_file(registry, file, error, gives);
}

static int serve_inc(struct registry *registry, const struct bim_request *request, struct object *object)
{
    bim_device_raised raised;
    int error = bim_device_inc(&registry->device, object->number, request->value, registry->now, &raised);

    if (error)
        return error;
    if (record_signal(object->timeline, raised.pending, registry->trace))
        registry->signalled_at = registry->now;
    if (raised.woken > 0)
        registry_wake(registry);
    return 0;
}

static int serve_merge(struct registry *registry, const struct bim_request *request, struct object *a, int *gives)
{
    struct object *b = registry_find(registry, request->b), *file;
    size_t length = strnlen(request->name, BIM_TEXT_ROOM - 1);
    int error = registry_begin(registry, SYNC_FILE, request, &file, gives);

    if (error)
        return error;
    error = bim_device_merge_n(&registry->device, a->number, b ? b->number : 0, request->name, length, &file->number);
    return finish_pending(registry, file, error, gives);
}

static int serve_export(struct registry *registry, const struct bim_request *request, struct object *buffer, int *gives)
{
    struct object *file;
    int error = registry_begin(registry, SYNC_FILE, request, &file, gives);

    if (error)
        return error;
    error = bim_device_export(&registry->device, buffer->number, request->flags, &file->number);
    return finish_pending(registry, file, error, gives);
}

/* Traces the beginning or end of a wait. The answer's status is 1 if the file is pending. */
static int serve_wait(struct registry *registry, const struct bim_request *request, struct object *file,
                      struct bim_answer *answer)
{
    struct fence *fence = file->kind == SYNC_FILE ? record_waited(&file->fences) : NULL;
    int32_t signalled;
    int error = bim_device_is_signalled(&registry->device, file->number, &signalled);

    if (error || !fence)
        return error;
    if (request->value == 0) {
        trace_event(registry->trace, "wait_end", fence);
    } else if (!signalled) {
        record_enable(&file->fences, registry->trace);
        trace_event(registry->trace, "wait_start", fence);
        answer->status = 1;
    }
    return 0;
}

/* Serves a request on the object `a`. */
static int serve_object(struct registry *registry, const struct bim_request *request, int passed,
                        struct bim_answer *answer, int *gives)
{
    struct object *object = registry_find(registry, request->a);

    if (!object)
        return ENOTTY;
    switch (request->op) {
    case BIM_OP_FENCE: return serve_fence(registry, request, object, answer, gives);
    case BIM_OP_INC: return serve_inc(registry, request, object);
    case BIM_OP_MERGE: return serve_merge(registry, request, object, gives);
    case BIM_OP_INFO: return info_of_file(registry, request, object, answer, gives);
    case BIM_OP_WAIT: return serve_wait(registry, request, object, answer);
    case BIM_OP_EXTEND: return buffer_extend(registry, request, object, passed);
    case BIM_OP_MEMORY: return buffer_memory(request, object, answer, gives);
    case BIM_OP_NAME: return buffer_name(object, request->name);
    case BIM_OP_EXPORT: return serve_export(registry, request, object, gives);
    case BIM_OP_IMPORT: return buffer_import(registry, request, object, passed);
    case BIM_OP_TEST: return buffer_test(registry, request, object, &answer->status);
    default: return EINVAL;
    }
}

static int serve_gone(struct registry *registry, const struct bim_request *request, struct bim_answer *answer)
{
    struct object *object = registry_find(registry, request->a);

    if (object)
        registry_look(registry, object, true);
    registry_settle(registry);
    answer->status = !registry_find(registry, request->a);
    return 0;
}

static int serve_page(struct registry *registry, int *gives)
{
    *gives = call_dup_from(registry->page_memory, 0);
    return *gives < 0 ? errno : 0;
}

static void set_who(struct registry *registry, const struct bim_request *request)
{
    if (!registry->trace)
        return;
    memcpy(registry->trace->who.task, request->task, BIM_TASK_ROOM);
    registry->trace->who.thread = request->thread;
    registry->trace->who.processor = request->processor;
    registry->trace->now = registry->now;
}

void registry_serve(struct registry *registry, const struct bim_request *request, int passed, struct bim_answer *answer,
                    int *gives)
{
    *gives = -1;
    memset(answer, 0, offsetof(struct bim_answer, row));
    registry->requests++;
    registry->now = registry_now();
    set_who(registry, request);
    switch (request->op) {
    case BIM_OP_HELLO: answer->error = serve_page(registry, gives); break;
    case BIM_OP_TIMELINE: answer->error = serve_timeline(registry, request, gives); break;
    case BIM_OP_BUFFER: answer->error = buffer_make(registry, request, passed, gives); break;
    case BIM_OP_TEXT: answer->error = info_text(registry, gives); break;
    case BIM_OP_GONE: answer->error = serve_gone(registry, request, answer); break;
    default: answer->error = serve_object(registry, request, passed, answer, gives); break;
    }
    answer->gives = *gives >= 0;
    if (request->op != BIM_OP_MEMORY)
        answer->at = registry->now;
    buffers_retry(registry);
    trace_flush(registry->trace);
}
