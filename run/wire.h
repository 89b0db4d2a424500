/* The protocol between a process and its service: one request, then one answer, each a message of its own. */
#ifndef BIM_RUN_WIRE_H
#define BIM_RUN_WIRE_H

#include <linux/sync_file.h>
#include <stddef.h>
#include <stdint.h>
#include <sys/stat.h>

/* Environment variables of a program: where its service is, and, if given, the trace file, the seed of --shuffle, the file of
 * --check, the file of processes (processes.h), and the schedule of --follow; and of a process that posix_spawn made, its name. */
#define BIM_SERVICE "BIMPHLAI_RUN"
#define BIM_TRACE   "BIMPHLAI_RUN_TRACE"
#define BIM_SHUFFLE "BIMPHLAI_RUN_SHUFFLE"
#define BIM_DIRECT  "BIMPHLAI_RUN_DIRECT"
#define BIM_CHECK   "BIMPHLAI_RUN_CHECK"
#define BIM_THREADS "BIMPHLAI_RUN_THREADS"
#define BIM_THREAD  "BIMPHLAI_RUN_THREAD"
#define BIM_PLAN    "BIMPHLAI_RUN_PLAN"
#define BIM_FOLLOW  "BIMPHLAI_RUN_FOLLOW"
#define BIM_LOCAL   "local"

/* The exit status of a process whose service is gone, or belongs to another process. */
enum { BIM_LOST = 123 };

/* The inode modes of our descriptors. By itself, no pipe, socket or memory file has the sticky bit. A kernel may refuse
 * the right to execute memory files. */
enum bim_mark {
    BIM_TIMELINE_MARK = S_IFIFO | S_ISVTX | 0600,
    BIM_FILE_MARK = S_IFIFO | S_ISVTX | 0400,
    BIM_BUFFER_MARK = S_IFSOCK | S_ISVTX | 0600,
    BIM_BUFFER_ENDPOINT_MARK = S_IFSOCK | S_ISVTX | 0200, /* the service's end */
    BIM_MEMORY_MARK = S_IFREG | S_ISVTX | 0400,           /* the memory of a buffer */
    BIM_HEAP_MARK = S_IFREG | S_ISVTX | 0600,
    BIM_UDMABUF_MARK = S_IFREG | S_ISVTX | 0640 /* /dev/udmabuf */
};

enum bim_op {
    BIM_OP_HELLO = 1, /* gives the memory of bim_page */
    BIM_OP_CHANNEL,   /* gives the memory of a channel */
    BIM_OP_DOORBELL,  /* gives the channel's doorbell */
    BIM_OP_TIMELINE,
    BIM_OP_FENCE,  /* a: the timeline; value: the point */
    BIM_OP_INC,    /* a: the timeline; value: the increment */
    BIM_OP_MERGE,  /* a, b: the files; name */
    BIM_OP_INFO,   /* a: the file; value: how many rows the caller has room for */
    BIM_OP_GONE,   /* a: what was just closed, or BIM_ANY. Answered once all closings so far are done */
    BIM_OP_BUFFER, /* size; flags: its O_ACCMODE. With a memory descriptor: its bytes from `from` on */
    BIM_OP_EXTEND, /* a: the buffer; size, from: the part to add, of the memory whose descriptor is passed */
    BIM_OP_MEMORY, /* a: the buffer; value: the part, counted from 0, whose memory it gives, or BIM_NO_PART */
    BIM_OP_NAME,   /* a: the buffer; name */
    BIM_OP_EXPORT, /* a: the buffer; flags */
    BIM_OP_IMPORT, /* a: the buffer, which is passed as a descriptor too; b: the file; flags */
    BIM_OP_WAIT,   /* a: a file; value: 1 if a wait begins, 0 if it has ended */
    BIM_OP_TEXT,   /* gives the text of sync/info */
    BIM_OP_TEST,   /* a: the buffer; flags. Answers whether an access has nothing to wait for */
    BIM_OPS
};

#define BIM_ANY     UINT64_MAX
#define BIM_NO_PART UINT32_MAX

enum { BIM_TASK_ROOM = 16, BIM_TEXT_ROOM = 32, BIM_ROWS = 16 };

/* Objects are named by the number in the inode of their descriptors (endpoints.h), which each copy of a descriptor has.
 * The processor, the thread's number and its name are only for the trace. Requests and answers are cleared at each
 * call, which is slower beyond 80 bytes. */
struct bim_request {
    uint16_t op;
    uint16_t processor;
    int32_t thread;
    uint32_t value;
    uint32_t flags;
    uint64_t a;
    __extension__ union {
        uint64_t b;
        uint64_t size;
    };
    __extension__ union {
        char name[BIM_TEXT_ROOM];
        uint64_t from;
    };
    char task[BIM_TASK_ROOM];
};

/* A process that the service has no descriptor for gets ENFILE in place of its first answer. The first `rows` rows are
 * sent. An answer with more than BIM_ROWS rows has them in the memory file sent along. */
struct bim_answer {
    int32_t error; /* 0 or an errno */
    int32_t gives; /* 1 if a descriptor is sent along */
    uint32_t rows;
    int32_t is_lent; /* 1 if a buffer's memory is a program's memory files */
    __extension__ union {
        int32_t status; /* of a file. BIM_OP_GONE, BIM_OP_TEST: 1 if the object is gone, if nothing is pending */
        uint32_t flags; /* O_ACCMODE of a buffer */
    };
    __extension__ union {
        uint32_t fences; /* number of fences of a file */
        uint32_t parts;  /* number of parts of a buffer's memory */
    };
    __extension__ union {
        uint64_t size; /* of a buffer (BIM_OP_MEMORY) */
        uint64_t at;   /* when it was served, in nanoseconds of the monotonic clock, later than all that was served before */
    };
    __extension__ union {
        uint64_t from;  /* offset of a part in its memory file */
        uint64_t point; /* of a new fence, as a number that never wraps */
    };
    uint64_t length; /* length of the part */
    char name[BIM_TEXT_ROOM];
    struct sync_fence_info row[BIM_ROWS];
};

static inline size_t bim_answer_size(const struct bim_answer *answer)
{
    return offsetof(struct bim_answer, row) + answer->rows * sizeof answer->row[0];
}

#endif
