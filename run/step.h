/* The steps of a run: the calls for which a plan has lines. A thread's steps have the numbers 1, 2, and so on.
 *
 * A call is a step if it succeeds, and does or finds something: it makes, merges, exports, imports or increments, ends an
 * access, or shuts a timeline; or it finds that a file or a buffer is ready, or that a file has signalled. A call that fails or
 * finds nothing has no number, unless it is what a followed schedule has next (follow.h). */
#ifndef BIM_RUN_STEP_H
#define BIM_RUN_STEP_H

#include "wire.h"

#include <stdbool.h>
#include <stdint.h>

enum step_kind {
    STEP_TIMELINE = 1, /* `made` */
    STEP_BUFFER,       /* `made` */
    STEP_FENCE,        /* `made` of the timeline `of`, at the point `value` */
    STEP_MERGE,        /* `made` of the files `of` and `with` */
    STEP_EXPORT,       /* `made` of the buffer `of`, for the access `value` (DMA_BUF_SYNC_RW) */
    STEP_IMPORT,       /* the file `with` into the buffer `of`, for the access `value` */
    STEP_INC,          /* the timeline `of`, by `value` */
    STEP_WAIT,         /* a poll found `of`, and `more`, ready (`status` 1), or nothing */
    STEP_INFO,         /* FILE_INFO of the file `of`: `status` */
    STEP_TEST,         /* the end of the access `value` to the buffer `of`; `status` 1 if it has nothing to wait for */
    STEP_SHUT,         /* a close of the timeline `of`; `status` 1 if it was the last */
    STEP_LOCK          /* a mutex is locked: no step, but a schedule may have a turn for it, by the thread's number of locks */
};

/* What a poll found: a file, or a buffer that is ready for an access. */
struct step_found {
    uint64_t of;
    uint32_t value; /* 0 for a file */
};

enum { STEP_MORE = 64 };

/* Objects are named by the numbers in their inodes (endpoints.h), 0 if there is none. */
struct step {
    enum step_kind kind;
    int error; /* an errno, or 0 */
    int32_t status;
    uint32_t value;
    uint64_t made, of, with;
    const struct step_found *more;
    uint32_t more_count;
    bool is_second;                  /* has the number of the step before: the wait of an access that begins */
    const struct bim_request *request; /* what the service was asked, or NULL */
    const struct bim_answer *answer;   /* what it answered, or NULL */
};

bool step_is_on(void);
/* Calls a function for each call that may be a step, with its number, or 0, on its thread, before it returns. */
void step_listen(void (*listener)(const struct step *step, uint32_t number));

/* Called around a call that may be a step, which begins when it is its turn. */
void step_begin(enum step_kind kind);
/* The same for a poll of a buffer: what it finds may change, so it isn't made before its turn. */
void step_begin_of_buffer(void);
void step_end(const struct step *step);
/* Called in place of step_begin before a step that is the second of its call. */
void step_continue(enum step_kind kind);

/* As shim_ask, for a request that is a step. */
int step_ask(enum step_kind kind, struct bim_request *request, int passed, struct bim_answer *answer, int *given);
/* As shim_ask_for_file. */
int step_ask_for_file(enum step_kind kind, struct bim_request *request);

#endif
