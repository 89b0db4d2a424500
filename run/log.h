/* The log of a run that becomes a plan (--plan): what each thread did, as records of one size. It is a file that the tool makes, and
 * that all processes of the run and their service map, so a record costs no system call. Records come in the order in which they were
 * begun, which agrees with each order of threads that they show. */
#ifndef BIM_RUN_LOG_H
#define BIM_RUN_LOG_H

#include <stdbool.h>
#include <stdint.h>

enum log_kind {
    LOG_UNFINISHED, /* its thread was killed */

    /* Who writes: the first records of a thread, of a process, and of what that has in its memory. */
    LOG_THREAD,  /* text: its name; call: the number of its process's memory; result: its process */
    LOG_TASK,    /* text: how the kernel calls the thread */
    LOG_ROUTINE, /* frames[0]: the function that it runs */
    LOG_LOADED,  /* base: where a program or a library was loaded, by the file's addresses; text: the next bytes of its path */

    /* Calls. The first object is the one that is made, or the one that is used. */
    LOG_TIMELINE,
    LOG_BUFFER,
    LOG_FENCE,  /* object: file, timeline; value: the point */
    LOG_INC,    /* object: timeline; value: the increment */
    LOG_MERGE,  /* object: file, and the two that it was made of */
    LOG_EXPORT, /* object: file, buffer; flags */
    LOG_IMPORT, /* object: buffer, file; flags */
    LOG_INFO,   /* object: file; result: a status other than 0; value: how many fences */
    LOG_WAIT,   /* object: a file that was found to have signalled; flags: 1 if an access begins by that */
    LOG_READY,  /* object: a buffer that was found ready; flags: for which access */
    LOG_END,    /* object: buffer; flags: an access that ends; result: whether nothing was pending */
    LOG_CLOSE,  /* object: a timeline whose last copy it was. Ends after LOG_SHUT */
    LOG_LAST_CALL = LOG_CLOSE,

    /* Calls that a plan has no line for. */
    LOG_AGAIN,  /* object: a file or a buffer that was found pending */
    LOG_FAILED, /* result: the errno */

    /* Of the service. */
    LOG_SHUT, /* object: a timeline whose last copy was closed */

    /* Orders. */
    LOG_RELEASE, /* object: what is given; flags: enum log_order */
    LOG_ACQUIRE, /* the same; call: which mutex of its thread it locks, or 0 */
    LOG_PAIR,   /* object: the two ends of a pair of sockets */
    LOG_CREATE, /* text: the name of a thread that is created next */
    LOG_JOIN,   /* text: the name of a thread that has ended */
    LOG_REAP,   /* result: a process that has ended */

    LOG_LACKS /* flags: enum log_lack */
};

/* What orders threads. The number of the process is part of what identifies a lock. */
enum log_order { LOG_MUTEX = 1, LOG_CONDITION, LOG_OTHER_LOCK, LOG_PIPE, LOG_SOCKET };

/* What the library sees, but no plan can have. */
enum log_lack { LOG_LACKS_EPOLL = 1 };

enum { LOG_FRAMES = 3, LOG_TEXT = 48, LOG_ROOM = 1 << 18 };

struct log_record {
    uint64_t time; /* of the monotonic clock, in nanoseconds: when it took effect */
    uint32_t thread;
    uint16_t flags;
    _Atomic uint16_t kind; /* written last */
    uint32_t call;         /* which call of its thread, from 1, or 0 */
    int32_t result;
    __extension__ union {
        __extension__ struct {
            uint64_t object[3], value;
            uint64_t frames[LOG_FRAMES]; /* the addresses behind the calls that led there, the innermost first */
        };
        __extension__ struct {
            uint64_t base;
            char text[LOG_TEXT];
        };
    };
};

struct log {
    _Atomic uint64_t records; /* how many were begun, more than LOG_ROOM if the log is full */
    _Atomic uint64_t calls;
    uint64_t most_calls;
    _Atomic uint32_t threads, processes;
    struct log_record all[LOG_ROOM];
};

/* Makes the log's file for a number of calls. Returns 0 or an errno. */
int log_make(const char *path, uint64_t most_calls);
/* Maps the log's file. Returns 0 or an errno. */
int log_open(const char *path);
/* The log, or NULL if none is open. */
struct log *log_opened(void);
uint64_t log_now(void);
/* Adds a copy of a record, unless the log is full. */
void log_add(const struct log_record *record);

#endif
