/* A plan of one run (--plan), made of its log (log.h): the lines that the calls of its threads become, and the orders between them.
 * plan_log.c reads the log, plan_lines.c makes the lines, plan_clocks.c takes the orders, plan_orders.c decides which of them need
 * notes of their own, plan_files.c which files are closed, plan_text.c writes. */
#ifndef BIM_RUN_PLAN_H
#define BIM_RUN_PLAN_H

#include "log.h"
#include "map.h"
#include "places.h"

#include <stdbool.h>
#include <stddef.h>
#include <stdint.h>
#include <stdio.h>

/* Limits of `fencectl explore`. */
enum { PLAN_CLIENTS = 32, PLAN_LINES = 16384, PLAN_FILES = 1024, PLAN_TIMELINES = 256, PLAN_BUFFERS = 64, PLAN_NAME = 32 };

enum verb {
    LINE_TIMELINE,
    LINE_BUFFER,
    LINE_FENCE,
    LINE_MERGE,
    LINE_EXPORT,
    LINE_IMPORT,
    LINE_INC,
    LINE_WAIT,
    LINE_INFO,
    LINE_TEST,
    LINE_SHUT
};

struct plan_thread;
struct line;

/* A timeline, a file or a buffer. */
struct thing {
    char name[PLAN_NAME];
    struct line *made;      /* NULL if the log doesn't have it */
    struct thing *timeline; /* of a file of one fence */
    uint64_t value;         /* of a timeline: what it was raised to; of such a file: its point */
    uint64_t greatest;      /* of a timeline: its greatest point */
    struct plan_thread *user;    /* of a timeline: who uses it */
    bool is_shared;         /* if others use it too */
    bool is_lent;           /* of a file: another thread than its maker uses it */
    struct line *last;      /* of a file: its last use */
    struct thing *next;     /* that is closed below the same line */
};

/* A mutex, as an exclusion (--orders locks). */
struct mutex {
    unsigned number; /* 0 until a section of it has a line */
    bool is_waited_under;
};

/* A mutex that a thread has, and its line below which it took it. */
struct held {
    struct mutex *mutex;
    unsigned from;
    const struct event *taken;
    struct plan_thread *thread;
    struct held *next;
};

/* A section of a mutex that begins or ends with a line, or that is passed before it. */
struct section {
    struct mutex *mutex;
    const struct event *taken;
    struct section *next;
};

/* A line of another thread after which a line has to come. */
struct order {
    struct line *line;
    struct order *next;
};

struct line {
    enum verb verb;
    struct plan_thread *thread;
    unsigned number; /* in its thread, from 1 */
    const struct event *event; /* what it was made of */
    uint32_t call;             /* which call of its thread, or 0 */
    struct thing *made, *of, *with;
    uint64_t value;   /* a point, an increment, or an access's flags; of an increment and a closing, what came of it is `reached` */
    uint64_t reached;
    int32_t status;   /* of FILE_INFO; of a test, whether nothing was pending */
    unsigned *needs;  /* by thread: how many of its lines come before */
    unsigned *known;  /* by thread: how many of its lines the plan has before */
    bool awaits;      /* another thread makes what it uses */
    bool is_dropped, is_common; /* above the first client */
    unsigned mark;    /* its number, or 0 if no line has this one in its orders */
    struct order *orders;
    struct section *begins, *ends, *passes;
    struct thing *closes; /* files that are closed below the line */
    unsigned turn, commands; /* how many commands of the plan come before its first one, as in the run, and how many it has */
    struct line *access; /* where the access ends that begins with this line, or the other way round, or NULL */
};

struct plan_thread {
    char name[LOG_TEXT], title[PLAN_NAME];
    unsigned index;
    int process;
    const struct log_record *routine; /* or NULL */
    uint32_t memory;
    struct line **lines;
    unsigned count, room;
    uint32_t counted;        /* its last call that was counted */
    unsigned made[4];        /* how many timelines, buffers, files and exported files it has made */
    unsigned *clock;         /* by thread: how many of its lines are known to have been made */
    unsigned *created;       /* the clock of its making, or NULL */
    bool is_reaped;          /* its process has ended, and its parent has waited for it */
    struct thing *checked;   /* a buffer of its own, for files of several fences */
    struct map asked;        /* files that it has found pending since its last line */
    uint64_t last;           /* time of its last record */
    struct held *held;       /* the mutexes that it has */
    struct plan_thread *before, *after; /* the threads with which it shares a client */
    unsigned *known;         /* by thread: how many of its lines the plan's lines so far come after */
};

/* A record at its time. What nobody's call did, the service's records, has the thread whose call or whose end did it. */
struct event {
    uint64_t time;
    const struct log_record *record;
    struct plan_thread *thread;
    uint32_t call;
    const struct log_record *place;
};

/* Where the log's threads are: after an exec, two of them are one thread. */
struct slot {
    struct plan_thread *thread;
    uint32_t memory;
};

/* What a process has in its memory. */
struct loaded {
    uint32_t memory;
    uint64_t base;
    char *path;
    struct loaded *next;
};

struct plan {
    /* Of the log. */
    const struct log *log;
    struct event *events; /* in order of time */
    size_t event_count;
    struct slot *slots;
    struct loaded *loaded;
    uint64_t begun; /* time of the first record */
    struct plan_thread *threads;
    struct plan_thread **sorted; /* by name */
    unsigned thread_count, slot_count;
    uint64_t calls, calls_of_run; /* how many the plan has, and the log */
    bool excludes;                /* --orders locks */

    /* Of the first calls. */
    struct map things, orders, mutexes, pairs;
    struct line **lines; /* in order of the run */
    size_t count, room;
    struct plan_thread *main;  /* who made the first line */
    unsigned first, last; /* its lines up to `first` come before all others', its lines after `last` come after all */
    unsigned marks, mutex_count, clients, timelines, buffers, files, commands;
    bool has_idle_lines; /* each has one more order of the line below it */
    struct held *empties; /* sections without lines */
    char lack[256];       /* what the plan lacks, or "" */

    struct taken *taken; /* memory */
};

/* Returns zeroed memory that lasts as long as the plan. Ends the program if there is none, as do the calls below. */
void *plan_take(struct plan *plan, size_t size);
/* Makes room for one more pointer in an array. */
void *plan_grow(struct plan *plan, void *array, size_t count, size_t *room);
void plan_put(struct plan *plan, struct map *map, uint64_t key, void *value);
/* Copies a clock, or makes one of zeros. */
unsigned *plan_copy(struct plan *plan, const unsigned *clock);
/* Raises a clock to another one where that is greater. */
void plan_join(const struct plan *plan, unsigned *clock, const unsigned *other);

/* Reads the log, but for what the calls become. */
void plan_read_log(struct plan *plan, const struct log *log);
struct spot plan_spot(const struct plan *plan, const struct log_record *record, uint64_t address);
/* Makes the lines of the first calls. */
void plan_read_lines(struct plan *plan);
/* Takes an order of threads. */
void plan_take_order(struct plan *plan, const struct event *event);
/* Adds the sections without lines. */
void plan_end_sections(struct plan *plan);
/* Decides which lines the plan has, where each is, and after which others it comes. */
void plan_order(struct plan *plan);
/* Counts how many files the plan has open at most, and closes some if these are too many. */
void plan_close_files(struct plan *plan);

void plan_write(const struct plan *plan, const struct places *places, const char *program, FILE *to);
/* Writes the run itself: its lines in their order, with what each was answered. */
void plan_write_run(const struct plan *plan, FILE *to);

/* Writes the plan of a log into a file, with as many of its first calls as a plan may have, and `calls` at most. Returns an exit
 * status: 0, STATUS_NO_PLAN, or STATUS_FAULT. */
enum { STATUS_NO_PLAN = 124 };
int plan_make(const struct log *log, const char *file, uint64_t calls, bool excludes, const char *program);

#endif
