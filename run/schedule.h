/* A schedule that the threads of a run follow (--follow): in whose turn each call is. It is in a file that the tool makes, and
 * that all processes of the run share. */
#ifndef BIM_RUN_SCHEDULE_H
#define BIM_RUN_SCHEDULE_H

#include "step.h"
#include "thread.h"

#include <limits.h>
#include <stdatomic.h>
#include <stdbool.h>

enum { SCHEDULE_PLACE = 120 };

struct turn {
    struct thread_name thread;
    uint32_t number; /* of the thread's call, or of its lock */
    enum step_kind kind;
    char place[SCHEDULE_PLACE]; /* where the program makes the call, as a plan's note says */
};

enum outcome {
    SCHEDULE_RUNS,
    SCHEDULE_MADE,    /* all turns were */
    SCHEDULE_MISSED,  /* `other` waited longer than the patience for the turn `at` */
    SCHEDULE_LEFT     /* `other` was made at the turn `at`, and is of another kind */
};

struct schedule {
    _Atomic uint32_t at; /* the turn that is next, which threads sleep on */
    _Atomic uint32_t outcome;
    struct turn other;
    _Atomic uint32_t waiting; /* threads that wait for a file or a buffer */
    _Atomic uint64_t turned;  /* when the turn `at` began, in nanoseconds */
    _Atomic uint64_t last;    /* when a call last began or ended, in nanoseconds */
    uint64_t patience;        /* in nanoseconds */
    char ways[PATH_MAX];      /* the file in which threads note where they make the calls that are in turn */
    bool is_race;             /* two threads access a buffer once all turns were made */
    uint32_t turns, others;   /* behind the turns are the calls that are made out of turn, and the locks that may have no turn */
    struct turn all[];
};

/* Makes the file of a schedule that has only its numbers and its calls. Returns 0 or an errno. */
int schedule_make(const char *path, const struct schedule *schedule);
/* Returns the schedule of a file, or NULL. */
struct schedule *schedule_open(const char *path);
size_t schedule_size(const struct schedule *schedule);
/* Ends the following, unless it has ended. `other` may be NULL. */
void schedule_end(struct schedule *schedule, enum outcome outcome, const struct turn *other);
uint64_t schedule_now(void);

#endif
