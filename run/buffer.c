/* Buffers: mappable memory, and a socket that polls as the kernel's dma-buf does. */
#define _GNU_SOURCE
#include "calls.h"
#include "registry.h"

#include <errno.h>
#include <stdlib.h>
#include <string.h>
#include <sys/mman.h>

/* For each access, the usage that poll tests and the flags that it exports: reading waits for writers, writing for
 * all. */
static const int USAGES[ACCESSES] = { [READING] = BIM_WRITE, [WRITING] = BIM_READ };
static const uint32_t AWAITS[ACCESSES] = { [READING] = BIM_SYNC_READ, [WRITING] = BIM_SYNC_WRITE };

/* The kernel refuses a buffer larger than the machine's memory. */
static bool is_too_large(uint64_t size)
{
    return size / sysconf(_SC_PAGESIZE) > (uint64_t)sysconf(_SC_PHYS_PAGES);
}

static int give_up(int memory)
{
    call_close(memory);
    errno = ENOMEM;
    return -1;
}

/* Headers older than Linux 5.1 lack this seal. */
#ifndef F_SEAL_FUTURE_WRITE
#define F_SEAL_FUTURE_WRITE 0x0010
#endif

/* Makes memory of `size` bytes. Returns -1 with errno on failure. Read-only memory is sealed, or opened read-only, which
 * needs /proc, so that it can't be mapped writable later. */
static int new_memory(uint64_t size, uint32_t flags)
{
    int memory = memfd_create("dmabuf", MFD_CLOEXEC | (flags == O_RDONLY ? MFD_ALLOW_SEALING : 0)), fixed;

    if (memory < 0)
        return -1;
    if (is_too_large(size) || ftruncate(memory, size) || syscall(SYS_fchmod, memory, BIM_MEMORY_MARK & ~S_IFMT))
        return give_up(memory);
    if (flags != O_RDONLY || syscall(SYS_fcntl, memory, F_ADD_SEALS, F_SEAL_FUTURE_WRITE | F_SEAL_SEAL) == 0)
        return memory;
    fixed = call_open_again(memory);
    if (fixed < 0)
        return memory;
    call_close(memory);
    return fixed;
}

static int make_memory(struct registry *registry, const struct bim_request *request)
{
    int memory;

    registry->host->begin_files();
    memory = new_memory(request->size, request->flags);
    if (memory >= 0)
        memory = registry->host->place(memory);
    registry->host->end_files();
    return memory;
}

/* Returns a descriptor of the registry's own for memory that a program passed. */
static int keep_memory(struct registry *registry, int passed)
{
    int memory;

    registry->host->begin_files();
    memory = call_dup_from(passed, 0);
    if (memory >= 0)
        memory = registry->host->place(memory);
    registry->host->end_files();
    return memory;
}

/* Adds a part to a buffer: of the memory that was passed, or else of new memory. */
static int add_part(struct registry *registry, const struct bim_request *request, struct buffer *buffer, int passed)
{
    int error = passed < 0 ? 0 : parts_check(passed, request->from, request->size), memory;

    if (error)
        return error;
    memory = passed < 0 ? make_memory(registry, request) : keep_memory(registry, passed);
    if (memory < 0 && errno == EMFILE && registry->host->make_room(registry))
        return add_part(registry, request, buffer, passed);
    if (memory < 0)
        return errno;
    error = parts_add(&buffer->memory, memory, request->from, request->size);
    if (error)
        call_close(memory);
    else
        buffer->size += request->size;
    return error;
}

int buffer_make(struct registry *registry, const struct bim_request *request, int passed, int *gives)
{
    struct parts memory;
    struct object *object;
    int error = registry_begin(registry, BUFFER, request, &object, gives);

    if (error)
        return error;
    object->buffer = (struct buffer){ .registry = registry, .flags = request->flags, .is_lent = passed >= 0 };
    object->buffer.is_ready[WRITING] = true;
    error = add_part(registry, request, &object->buffer, passed);
    if (!error)
        error = bim_device_buffer(&registry->device, registry->now, &object->number);
    memory = object->buffer.memory;
    if (!error)
        error = endpoint_set_readable(object->endpoint);
    object->buffer.is_ready[READING] = true;
    error = registry_finish(registry, object, error, gives);
    if (error)
        parts_close(&memory);
    registry->page->buffers = 1;
    return error;
}

int buffer_extend(struct registry *registry, const struct bim_request *request, struct object *buffer, int passed)
{
    if (buffer->kind != BUFFER)
        return ENOTTY;
    if (buffer->buffer.memory.count == PARTS_MOST)
        return EINVAL;
    return passed < 0 ? EBADF : add_part(registry, request, &buffer->buffer, passed);
}

int buffer_memory(const struct bim_request *request, const struct object *buffer, struct bim_answer *answer, int *gives)
{
    const struct part *part;

    if (buffer->kind != BUFFER)
        return ENOTTY;
    answer->size = buffer->buffer.size;
    answer->flags = buffer->buffer.flags;
    answer->parts = buffer->buffer.memory.count;
    answer->is_lent = buffer->buffer.is_lent;
    memcpy(answer->name, buffer->buffer.name, sizeof answer->name);
    if (request->value == BIM_NO_PART)
        return 0;
    if (request->value >= buffer->buffer.memory.count)
        return EINVAL;
    part = &buffer->buffer.memory.at[request->value];
    answer->from = part->from;
    answer->length = part->size;
    *gives = call_dup_from(part->memory, 0);
    return *gives < 0 ? errno : 0;
}

int buffer_name(struct object *buffer, const char *name)
{
    if (buffer->kind != BUFFER)
        return ENOTTY;
    memcpy(buffer->buffer.name, name, sizeof buffer->buffer.name);
    buffer->buffer.name[BIM_TEXT_ROOM - 1] = 0;
    return 0;
}

/* Makes the program's poll report the buffer for this access again, or has that retried. */
void buffer_is_ready(struct object *object, enum access access)
{
    struct buffer *buffer = &object->buffer;

    if (buffer->is_ready[access])
        return;
    if (access == WRITING)
        endpoint_set_writable(object->endpoint);
    buffer->is_ready[access] = access == WRITING || endpoint_set_readable(object->endpoint) == 0;
    if (!buffer->is_ready[access])
        buffer->registry->has_unawaited = true;
}

/* Releases the file that an access waits for. `with_process` says that its process may be ending. */
static void stop_awaiting(struct registry *registry, struct buffer *buffer, enum access access, bool with_process)
{
    struct object *awaited = buffer->awaited[access];

    if (!awaited)
        return;
    bim_device_release(&registry->device, awaited->number, registry->now);
    record_drop(&awaited->readiness.fences, with_process, registry->trace);
    registry_forget(registry, awaited);
    buffer->awaited[access] = NULL;
}

static struct object *new_readiness(struct object *of, enum access access)
{
    struct object *awaited = calloc(1, sizeof *awaited);

    if (!awaited)
        return NULL;
    awaited->kind = READINESS;
    awaited->endpoint = -1;
    awaited->readiness.of = of;
    awaited->readiness.access = access;
    return awaited;
}

/* Has the device report when all fences of the access have signalled, by a file that no program holds. */
static int await(struct registry *registry, struct object *object, enum access access)
{
    struct object *awaited = new_readiness(object, access);
    uint64_t number = 0;
    int error;

    if (!awaited)
        return ENOMEM;
    error = bim_device_export(&registry->device, object->number, AWAITS[access], &number);
    if (!error)
        error = registry_fences(registry, number, &awaited->readiness.fences);
    if (!error)
        error = map_add(&registry->by_number, number, awaited);
    if (error) {
        record_drop(&awaited->readiness.fences, false, registry->trace);
        if (number)
            bim_device_release(&registry->device, number, registry->now);
        free(awaited);
        return error;
    }
    awaited->number = number;
    stop_awaiting(registry, &object->buffer, access, false);
    object->buffer.awaited[access] = awaited;
    return 0;
}

static void await_or_retry(struct registry *registry, struct object *object, enum access access)
{
    if (await(registry, object, access) == 0)
        return;
    stop_awaiting(registry, &object->buffer, access, false);
    registry->has_unawaited = true;
}

/* Returns whether the device says that nothing is pending for an access. */
static bool is_idle(struct registry *registry, const struct object *object, enum access access)
{
    int32_t signalled = 0;

    return bim_device_test(&registry->device, object->number, USAGES[access], &signalled) == 0 && signalled;
}

int buffer_test(struct registry *registry, const struct bim_request *request, const struct object *object, int32_t *idle)
{
    if (object->kind != BUFFER)
        return ENOTTY;
    *idle = is_idle(registry, object, request->flags & BIM_SYNC_WRITE ? WRITING : READING);
    return 0;
}

/* Returns ENOMEM if poll still reports the readiness. */
static int clear(struct object *object, enum access access, int theirs)
{
    if (!object->buffer.is_ready[access])
        return 0;
    object->buffer.is_ready[access] = false;
    return access == READING ? endpoint_take_readable(theirs) : endpoint_take_writable(theirs);
}

/* Clears the readiness for which a file is pending, before the device has the file: if that fails, the file isn't
 * imported, and poll never reports a signal that was not given. */
static int clear_for(struct registry *registry, struct object *object, const struct object *file, uint32_t flags,
                     int theirs)
{
    int32_t signalled = 0;
    int error = 0;

    if (!file || bim_device_is_signalled(&registry->device, file->number, &signalled) || signalled)
        return 0;
    if (flags & BIM_SYNC_WRITE)
        error = clear(object, READING, theirs);
    if (!error && flags & BIM_SYNC_RW)
        error = clear(object, WRITING, theirs);
    return error;
}

/* Sets the readiness for an access again, or awaits it, as the device says. */
static void refresh(struct registry *registry, struct object *object, enum access access)
{
    if (is_idle(registry, object, access))
        buffer_is_ready(object, access);
    else
        await_or_retry(registry, object, access);
}

static void retry(struct registry *registry, struct object *object)
{
    for (enum access access = 0; access < ACCESSES; access++) {
        if (object->buffer.is_ready[access])
            continue;
        if (is_idle(registry, object, access) || !object->buffer.awaited[access])
            refresh(registry, object, access);
    }
}

void buffers_retry(struct registry *registry)
{
    if (!registry->has_unawaited)
        return;
    registry->has_unawaited = false;
    for (size_t i = 0; i < registry->by_inode.room; i++) {
        struct object *object = registry->by_inode.entries[i].value;

        if (object && object->kind == BUFFER && object->number)
            retry(registry, object);
    }
}

/* Returns whether the program's end, which is needed to clear readiness, was passed along. */
static bool is_end_of(const struct object *object, int passed)
{
    uint64_t inode;

    return passed >= 0 && endpoint_mark(passed, &inode) == BIM_BUFFER_MARK && inode == object->inode;
}

/* Nothing can fail once the device has the file: what lacks memory then is retried later. */
int buffer_import(struct registry *registry, const struct bim_request *request, struct object *object, int passed)
{
    struct object *file = registry_find(registry, request->b);
    int error;

    if (object->kind != BUFFER || !is_end_of(object, passed))
        return object->kind == BUFFER ? EBADF : ENOTTY;
    error = clear_for(registry, object, file, request->flags, passed);
    if (!error)
        error = bim_device_import(&registry->device, object->number, file ? file->number : 0, request->flags);
    if (error)
        retry(registry, object);
    for (enum access access = 0; access < ACCESSES && !error; access++)
        refresh(registry, object, access);
    return error;
}

void buffer_drop(struct registry *registry, struct object *object)
{
    for (enum access access = 0; access < ACCESSES; access++)
        stop_awaiting(registry, &object->buffer, access, !object->is_told);
    parts_close(&object->buffer.memory);
}
