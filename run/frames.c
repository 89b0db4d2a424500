/* Finding a call's frames by the unwinder takes longer than all else that is recorded of the call. So a thread keeps what it found
 * of its latest calls: the frames, and where on the stack their addresses are. A later call from the same depth of the stack has these
 * frames if the stack still has these addresses. They are compared from the innermost on, since a frame's function and place say where
 * the next address is.
 *
 * This library's own frames are walked by frame pointers, which tools/build-run has the compiler keep. A program needs none. */
#define _GNU_SOURCE
#include "frames.h"

#include <dlfcn.h>
#include <stdatomic.h>
#include <stddef.h>
#include <unwind.h>

enum { KEPT = 8 };

struct found {
    const uintptr_t *frame; /* of this library's function that the program called: its caller's frame pointer, and an address */
    uintptr_t pointer;      /* that frame pointer, or 0 if the callers' frames don't depend on it */
    uintptr_t addresses[LOG_FRAMES];
    const uintptr_t *places[LOG_FRAMES]; /* of the addresses on the stack */
    int count;
};

#define OF_THREAD static __thread __attribute__((tls_model("initial-exec")))
OF_THREAD struct found kept[KEPT];
OF_THREAD bool is_busy; /* with what is kept, which a signal handler then leaves alone */

static __typeof__(&_Unwind_Backtrace) walk;
static __typeof__(&_Unwind_GetIP) address_of;
static __typeof__(&_Unwind_GetCFA) stack_of;

/* Where this library begins and ends, by the linker. */
extern const char __ehdr_start[] __attribute__((visibility("hidden"))), _end[] __attribute__((visibility("hidden")));

static bool is_own(uintptr_t address)
{
    return (uintptr_t)__ehdr_start <= address && address < (uintptr_t)_end;
}

void frames_begin(void)
{
    void *library = dlopen("libgcc_s.so.1", RTLD_NOW);

    if (!library)
        return;
    address_of = __extension__(__typeof__(address_of)) dlsym(library, "_Unwind_GetIP");
    stack_of = __extension__(__typeof__(stack_of)) dlsym(library, "_Unwind_GetCFA");
    walk = __extension__(__typeof__(walk)) dlsym(library, "_Unwind_Backtrace");
}

static _Unwind_Reason_Code add_frame(struct _Unwind_Context *context, void *given)
{
    struct found *found = given;
    uintptr_t address = address_of(context);

    if (is_own(address))
        return _URC_NO_REASON;
    found->addresses[found->count] = address;
    found->places[found->count] = (const uintptr_t *)stack_of(context) - 1;
    return ++found->count < LOG_FRAMES ? _URC_NO_REASON : _URC_END_OF_STACK;
}

static bool is_there(const struct found *found)
{
    for (int i = 0; i < LOG_FRAMES; i++)
        if (*found->places[i] != found->addresses[i])
            return false;
    return true;
}

/* Returns where the thread keeps what it found from this frame. */
static struct found *place_of(const struct found *found)
{
    return &kept[((uintptr_t)found->frame >> 4 ^ found->frame[1]) % KEPT];
}

static bool recall(struct found *found)
{
    const struct found *before = place_of(found);

    if (before->frame != found->frame || (before->pointer && before->pointer != found->pointer) || !is_there(before))
        return false;
    *found = *before;
    return true;
}

/* Only a frame of varying size is found by its frame pointer, which is in the frame. In other functions the register has any value. */
static bool has_pointer(const struct found *found)
{
    return (uintptr_t)found->places[0] < found->pointer && found->pointer < (uintptr_t)found->places[LOG_FRAMES - 1];
}

/* Where an address is on the stack is known only on x86-64, and there unless a signal interrupted the function. */
static void keep(struct found *found)
{
    if (found->count < LOG_FRAMES || found->places[0] != found->frame + 1 || !is_there(found))
        return;
    if (!has_pointer(found))
        found->pointer = 0;
    *place_of(found) = *found;
}

/* Begins at the frame of the function that the program called. */
static struct found found_from(const uintptr_t *frame)
{
    while (is_own(frame[1]))
        frame = (const uintptr_t *)frame[0];
    return (struct found){ .frame = frame, .pointer = frame[0] };
}

bool frames_find(uint64_t frames[LOG_FRAMES])
{
    struct found found = found_from(__builtin_frame_address(0));
    bool is_interrupting = is_busy, was_found;

    is_busy = true;
    atomic_signal_fence(memory_order_seq_cst);
    was_found = !is_interrupting && recall(&found);
    if (!was_found && walk)
        walk(add_frame, &found);
    if (!was_found && !is_interrupting)
        keep(&found);
    atomic_signal_fence(memory_order_seq_cst);
    is_busy = is_interrupting;
    for (int i = 0; i < LOG_FRAMES; i++)
        frames[i] = found.addresses[i];
    return was_found;
}
