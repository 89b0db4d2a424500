/* Common parts of the preloaded library: how it asks the service, and which descriptors belong to the service. */
#ifndef BIM_RUN_SHIM_H
#define BIM_RUN_SHIM_H

#include "endpoints.h"
#include "lock.h"
#include "page.h"
#include "wire.h"

#include <dlfcn.h>
#include <poll.h>
#include <stdbool.h>
#include <stddef.h>

/* The next library's definition of a function that this library overrides. All are looked up when the library is
 * loaded, since a signal handler can't look one up. A call before that looks up its own, or finds `next` NULL. */
#define NEXT_IF_LOADED(name)                                                              \
    static __typeof__(&name) next;                                                        \
    static const struct next_call looked_up                                               \
        __attribute__((used, section("bim_next"))) = { #name, __extension__(void *)&next }
#define NEXT(name)                                                                        \
    NEXT_IF_LOADED(name);                                                                 \
    if (!next)                                                                            \
    next = __extension__(__typeof__(&name)) dlsym(RTLD_NEXT, #name)

struct next_call {
    const char *name;
    void **at;
};

#define EXPORT __attribute__((visibility("default")))

/* Returns whether this process has a service. */
bool shim_is_on(void);
/* Asks the service, one thread at a time. Returns the answer's errno, or 0 on success. `passed` is a descriptor to send
 * along, or -1. `given`, unless it is NULL, becomes the descriptor that was sent back, or -1. */
int shim_ask(struct bim_request *request, int passed, struct bim_answer *answer, int *given);
/* Asks for a descriptor only. Returns it, or -1 with errno. */
int shim_ask_for_file(struct bim_request *request);
bool shim_is_traced(void);
bool shim_is_local(void);
/* Returns whether there may be a buffer. */
bool shim_has_buffers(void);
bool shim_is_buffer(int file, uint64_t *inode);
/* Returns whether a descriptor is a device's: a heap's or /dev/udmabuf's. */
bool shim_is_device(int file);
/* Asks for a part of a buffer's memory, or for its description only. Returns an errno: ENODEV if the file is no
 * buffer. */
int shim_memory(int file, uint32_t part, struct bim_answer *buffer, int *memory);
/* Returns whether the service has to hear of a closing. The closing of a file affects only the trace. */
bool shim_hears_closing(bool of_timeline);
/* Closes a descriptor on behalf of a call that isn't a cancellation point. */
void shim_close(int file);
/* Notes that the program has a signal handler. */
void shim_note_handler(void);
/* Call it before a call that may wait. Releases what was closed unnoticed. */
void shim_before_wait(void);
/* Traces the beginning or the end of a wait on a file, if the file is pending. Returns whether it is pending. */
bool shim_wait(int file, bool begins);
/* Stores the cached information of a file that has signalled. */
bool shim_recall(uint64_t inode, struct bim_answer *answer);
/* Returns whether a descriptor of this process is the service's. shim_above_own returns a number above all of these. */
bool shim_is_own(int file);
int shim_above_own(void);

/* Returns whether another process serves, and is alive. */
bool shim_lives(void);

/* State of this process only: the kernel zeroes it in a child. */
struct own {
    struct lock lock;
    _Atomic bool is_ready; /* has a connection, or a registry of its own */
};

/* How the service is asked: a server (link.c), or this process itself (local.c). Called with the lock held unless
 * stated otherwise. */
struct way {
    int (*prepare)(struct own *own); /* returns 0 or an errno */
    int (*ask)(const struct bim_request *request, int passed, struct bim_answer *answer, int *given);
    /* Called without the lock in a signal handler that the library doesn't know of, whose thread may be in a
     * request. */
    int (*ask_apart)(const struct bim_request *request, int passed, struct bim_answer *answer, int *given);
    void (*leave)(void);          /* called in a new process: drops what is the parent's */
    bool (*is_own)(int file); /* these two are called without the lock */
    int (*above_own)(void);
    bool sees_closings;
    void (*before_wait)(void); /* or NULL */
    const struct bim_page *(*page)(void);
    /* Without the lock. Returns whether the ends of all objects are open; or NULL for this process's own service. */
    bool (*lives)(void);
};
extern const struct way LINK, LOCAL;
/* Returns the value of the environment variable that names the service. */
const char *shim_service(void);

/* Opens a path if it is one of ours; `file` becomes its descriptor, or -1 with errno. Returns whether the path is
 * ours. */
bool shim_open(const char *path, int flags, int *file);
/* Serves an ioctl(2) on /dev/udmabuf. */
int shim_udmabuf(unsigned long call, const void *arg);
/* Begins or ends an access of a buffer, as DMA_BUF_IOCTL_SYNC does. Returns an errno. */
int shim_access(int file, uint64_t buffer, void *arg);

/* Returns the mark of a descriptor, or 0 if there is no service. */
enum bim_mark shim_mark(int file, uint64_t *inode);
/* Returns -1 with errno set to `error`, or 0 if `error` is 0. */
int shim_result(int error);

#endif
