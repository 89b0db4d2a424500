/* The registry: the timelines, files and buffers of one libbimphlai device, with their descriptors. The device makes
 * all decisions; the registry passes the results on to the processes that hold the descriptors. */
#ifndef BIM_RUN_REGISTRY_H
#define BIM_RUN_REGISTRY_H

#include "endpoints.h"
#include "map.h"
#include "page.h"
#include "parts.h"
#include "record.h"
#include "trace.h"
#include "wire.h"

#include <bimphlai.h>
#include <stdbool.h>
#include <stdint.h>

enum kind { TIMELINE, SYNC_FILE, BUFFER, READINESS };

/* The accesses to a buffer that poll reports: reading (POLLIN) and writing (POLLOUT). */
enum access { READING, WRITING, ACCESSES };

struct buffer {
    struct registry *registry;
    struct parts memory;
    bool is_lent;
    uint32_t flags;
    uint64_t size;
    char name[BIM_TEXT_ROOM];
    bool is_ready[ACCESSES];
    struct object *awaited[ACCESSES]; /* the device's file of the fences that the access waits for */
};

struct object {
    uint64_t number; /* the device's number */
    uint64_t inode;
    enum kind kind;
    int endpoint; /* the service's end, or -1 */
    bool is_closing;
    bool is_told; /* the process that closed it has said so */
    struct object *next_closing;
    struct who maker;
    union {
        struct timeline *timeline; /* of a timeline that has a number */
        struct fences fences;
        struct buffer buffer;
        struct {
            struct object *of; /* READINESS: a file of the device that no program holds */
            enum access access;
            struct fences fences;
        } readiness;
    };
};

struct registry;

/* Hooks that differ when the registry is in the program's own process. */
struct host {
    void (*begin_files)(void), (*end_files)(void);     /* called around code that opens descriptors */
    int (*place)(int file);                            /* moves a descriptor of the registry; returns its new number */
    bool (*make_room)(struct registry *registry);      /* called when no number is free; returns whether one is now */
    bool (*may_give)(int file);                        /* whether the program may get a descriptor of this number */
    void (*begin_writes)(void), (*end_writes)(void);   /* called around writes whose reader may be gone */
    bool (*owes_answer)(struct registry *registry);    /* whether the last increment's answer wasn't taken yet */
};

struct registry {
    const struct host *host;
    bim_device device;
    struct map by_inode, by_number;
    struct timelines timelines;
    struct object *closing; /* objects that no process holds any more */
    struct bim_page *page;
    int page_memory;
    struct trace *trace;
    int endpoints; /* an epoll set that reports objects whose last copy is closed, or -1 */
    bim_device_fence_info *rows;
    size_t rows_room;
    size_t counts[READINESS];
    bool has_unawaited; /* for want of memory, some buffers have no file that would report them ready */
    uint64_t requests;
    uint64_t now;          /* the time of the request that is served, or of the closings */
    uint64_t signalled_at; /* the time of the last increment that signalled a fence, or 0 */
};

/* Opens a registry, without a trace if `trace_path` is NULL. Returns 0 or an errno. */
int registry_open(struct registry *registry, const struct host *host, const char *trace_path);
void registry_close(struct registry *registry);

/* Answers a request. `passed` is the descriptor that came with it, or -1, and stays the caller's. `gives` becomes the
 * descriptor for the asking process, or -1. */
void registry_serve(struct registry *registry, const struct bim_request *request, int passed, struct bim_answer *answer,
                    int *gives);
/* Marks an object as closing if no process holds it any more; registry_settle then releases it. */
void registry_look(struct registry *registry, struct object *object, bool is_told);
void registry_settle(struct registry *registry);
/* Moves all descriptors that the registry holds to other numbers. */
void registry_place_all(struct registry *registry);
/* For a registry without `endpoints`: registry_sweep looks at all objects, and registry_sweep_timelines first at the
 * timelines only, and at all objects if any of these was closed, which it returns. */
void registry_sweep(struct registry *registry);
bool registry_sweep_timelines(struct registry *registry);

struct object *registry_find(const struct registry *registry, uint64_t inode);
uint64_t registry_now(void);
/* Returns whether the device says that an increment by `n` signals a fence. Closing a timeline signals what the
 * greatest increment would signal. */
bool registry_would_signal(struct registry *registry, uint64_t timeline, uint64_t n);

/* Internal to the registry: its parts are in files of their own. */
int registry_begin(struct registry *registry, enum kind kind, const struct bim_request *request, struct object **made,
                   int *gives);
int registry_finish(struct registry *registry, struct object *object, int error, int *gives);
void registry_wake(struct registry *registry);
void registry_forget(struct registry *registry, struct object *object);
/* Lists the fences that a device's file of pending points has. Returns 0 or ENOMEM. */
int registry_fences(struct registry *registry, uint64_t file, struct fences *fences);

int buffer_name(struct object *buffer, const char *name);
/* `passed` is the caller's memory file, or -1 for new memory. */
int buffer_make(struct registry *registry, const struct bim_request *request, int passed, int *gives);
int buffer_extend(struct registry *registry, const struct bim_request *request, struct object *buffer, int passed);
int buffer_memory(const struct bim_request *request, const struct object *buffer, struct bim_answer *answer,
                  int *gives);
int buffer_import(struct registry *registry, const struct bim_request *request, struct object *buffer, int passed);
/* Stores whether an access, by its flags, has nothing to wait for. Returns an errno. */
int buffer_test(struct registry *registry, const struct bim_request *request, const struct object *buffer, int32_t *is_idle);
void buffer_is_ready(struct object *buffer, enum access access);
/* Retries what failed for want of memory. */
void buffers_retry(struct registry *registry);
void buffer_drop(struct registry *registry, struct object *buffer);

int info_of_file(struct registry *registry, const struct bim_request *request, struct object *file,
                 struct bim_answer *answer, int *gives);
int info_text(struct registry *registry, int *gives);

#endif
