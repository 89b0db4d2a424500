#define _GNU_SOURCE
#include "follow.h"

#include "callers.h"
#include "calls.h"
#include "schedule.h"
#include "thread.h"

#include <errno.h>
#include <limits.h>
#include <linux/futex.h>
#include <stdio.h>
#include <stdlib.h>
#include <string.h>
#include <time.h>

enum { NANOSECONDS = 1000000000 };

/* A call that may find nothing waits for its turn for this part of the patience. */
enum { PART_TO_ASK = 10 };

static struct schedule *schedule; /* NULL if none is followed */

void follow_begin(void)
{
    const char *path = getenv(BIM_FOLLOW);

    schedule = path && thread_is_on() ? schedule_open(path) : NULL;
    if (schedule)
        callers_begin();
}

static bool runs(void)
{
    return schedule && schedule->outcome == SCHEDULE_RUNS && thread_name()[0];
}

static bool is_mine(const struct turn *turn)
{
    return strcmp(turn->thread.text, thread_name()) == 0;
}

static bool is_of_lock(const struct turn *turn)
{
    return turn->kind == STEP_LOCK;
}

/* Returns whether a call in the schedule is this thread's call, or lock, of this number. */
static bool is_call(uint32_t at, uint32_t number, bool locks)
{
    const struct turn *call = &schedule->all[at];

    return call->number == number && is_of_lock(call) == locks && is_mine(call);
}

static bool is_turn(uint32_t at, uint32_t number, bool locks)
{
    return at < schedule->turns && is_call(at, number, locks);
}

/* Returns whether a call is made out of turn: the schedule says so, or has a later call of this thread next. */
static bool is_free(uint32_t at, uint32_t number)
{
    for (uint32_t i = schedule->turns; i < schedule->turns + schedule->others; i++)
        if (is_call(i, number, false))
            return true;
    for (uint32_t i = at; i < schedule->turns; i++)
        if (!is_of_lock(&schedule->all[i]) && is_mine(&schedule->all[i]))
            return schedule->all[i].number > number;
    return false;
}

/* Returns whether the schedule has a turn for the lock of this number, or the lock is to wait for the schedule's end. */
static bool has_lock(uint32_t at, uint32_t number)
{
    for (uint32_t i = at; i < schedule->turns + schedule->others; i++)
        if (is_call(i, number, true))
            return true;
    return false;
}

/* Begins the next turn. */
static void go_on(uint32_t at)
{
    if (at + 1 == schedule->turns)
        schedule_end(schedule, SCHEDULE_MADE, NULL);
    schedule->turned = schedule_now();
    schedule->at = at + 1;
    syscall(SYS_futex, &schedule->at, FUTEX_WAKE, INT_MAX, NULL, NULL, 0);
}

static struct turn call_of(uint32_t number, enum step_kind kind)
{
    struct turn call = { .number = number, .kind = kind };

    strcpy(call.thread.text, thread_name());
    return call;
}

/* Sleeps until a turn has ended, or some time. Returns whether the turn is over. */
static bool sleep_until_over(uint32_t at, uint64_t time)
{
    uint64_t until = schedule_now() + time;

    while (schedule->at == at && schedule->outcome == SCHEDULE_RUNS) {
        uint64_t now = schedule_now();
        struct timespec left = { .tv_sec = (until - now) / NANOSECONDS, .tv_nsec = (until - now) % NANOSECONDS };

        if (now >= until)
            return false;
        syscall(SYS_futex, &schedule->at, FUTEX_WAIT, at, &left, NULL, 0);
    }
    return true;
}

/* A poll of a buffer has two lines, an export and a wait: only the wait has a moment. */
static bool is_export_of_poll(uint32_t at, enum step_kind kind)
{
    return kind == STEP_WAIT && schedule->all[at].kind == STEP_EXPORT;
}

/* Returns whether the schedule has what FILE_INFO is to answer, be it that the file is pending. */
static bool has_answer(uint32_t at, uint32_t number, enum step_kind kind)
{
    for (uint32_t i = at; i < schedule->turns; i++)
        if (is_call(i, number, false))
            return kind == STEP_INFO && (schedule->all[i].kind == STEP_INFO || schedule->all[i].kind == STEP_TEST);
    return false;
}

/* Ends the following for all, if a turn lasts longer than the patience. */
static void lose_patience(uint32_t number, enum step_kind kind)
{
    struct turn call = call_of(number, kind);

    if (schedule_now() >= schedule->turned + schedule->patience)
        schedule_end(schedule, SCHEDULE_MISSED, &call);
}

static void await_turn(uint32_t number, enum step_kind kind, bool asks)
{
    bool locks = kind == STEP_LOCK;
    uint64_t time = schedule->patience;

    if (asks && !has_answer(schedule->at, number, kind))
        time /= PART_TO_ASK;
    else
        asks = false;

    while (schedule->outcome == SCHEDULE_RUNS) {
        uint32_t at = schedule->at;

        if (is_turn(at, number, locks) && !is_export_of_poll(at, kind))
            return;
        if (is_turn(at, number, locks))
            go_on(at);
        else if (locks ? !has_lock(at, number) : is_free(at, number))
            return;
        else if (!sleep_until_over(at, time)) {
            lose_patience(number, kind);
            if (asks)
                return;
        }
    }
}

void follow_await(uint32_t number, enum step_kind kind, bool asks)
{
    int before = errno;

    if (runs())
        await_turn(number, kind, asks);
    if (schedule)
        schedule->last = schedule_now();
    errno = before;
}

/* Returns whether a call is of the kind of a turn. A loop of FILE_INFO that ends once the file has signalled is a wait, and
 * FILE_INFO of several fences a test. */
static bool fits(const struct turn *turn, const struct step *step)
{
    return turn->kind == step->kind || (step->kind == STEP_INFO && (turn->kind == STEP_WAIT || turn->kind == STEP_TEST));
}

bool follow_counts(const struct step *step, uint32_t number)
{
    uint32_t at = schedule ? schedule->at : 0;

    if (!runs() || !is_turn(at, number, false) || schedule->all[at].kind == STEP_WAIT || schedule->all[at].kind == STEP_SHUT)
        return false;
    return fits(&schedule->all[at], step);
}

/* Notes where the program makes the call of a turn. */
static void note_way(uint32_t at)
{
    char begin[16];

    snprintf(begin, sizeof begin, "%u", at);
    callers_note(schedule->ways, begin);
}

void follow_end(const struct step *step, uint32_t number)
{
    uint32_t at = schedule ? schedule->at : 0;
    struct turn call;

    if (schedule)
        schedule->last = schedule_now();
    if (!runs() || !is_turn(at, number, false))
        return;
    note_way(at);
    if (fits(&schedule->all[at], step)) {
        go_on(at);
        return;
    }
    call = call_of(number, step->kind);
    schedule_end(schedule, SCHEDULE_LEFT, &call);
}

void follow_begin_lock(void)
{
    int before = errno;

    if (runs())
        await_turn(thread_locks() + 1, STEP_LOCK, false);
    errno = before;
}

void follow_end_lock(bool is_locked)
{
    uint32_t number = is_locked ? thread_count_lock() : 0;
    uint32_t at = schedule ? schedule->at : 0;

    if (is_locked && runs() && is_turn(at, number, true))
        go_on(at);
}

void follow_wait(bool begins)
{
    if (!schedule)
        return;
    schedule->last = schedule_now();
    schedule->waiting += begins ? 1 : -1;
}
