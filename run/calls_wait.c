/* The kernel serves poll(2), select(2) and epoll_wait(2). The library traces waits of the first two. Once the service
 * is gone, these calls report what looks like a signal; it must not reach the program. */
#define _GNU_SOURCE
#include "calls.h"
#include "follow.h"
#include "loss.h"
#include "numbers.h"
#include "recorder.h"
#include "shim.h"
#include "shuffle.h"
#include "step.h"
#include "user.h"
#include "watched.h"

#include <errno.h>
#include <linux/dma-buf.h>
#include <poll.h>
#include <sys/epoll.h>
#include <sys/select.h>

enum { NOTED = 64 };

/* Returns whether the library has to do anything before a wait. */
static bool prepares_waits(void)
{
    return shim_is_traced() || shim_is_local();
}

/* Traces the beginning of a poll's waits. Returns the set of these descriptors, among the first 64. */
static uint64_t begin_waits(const struct pollfd *files, nfds_t count)
{
    struct pollfd copy[NOTED];
    uint64_t noted = 0;

    shim_before_wait();
    count = count < NOTED ? count : NOTED;
    if (!shim_is_traced() || user_get(copy, files, count * sizeof *files))
        return 0;
    for (nfds_t i = 0; i < count; i++)
        if (copy[i].events & POLLIN && shim_wait(copy[i].fd, true))
            noted |= (uint64_t)1 << i;
    return noted;
}

static void end_waits(const struct pollfd *files, uint64_t noted)
{
    int before;

    shuffle_pause();
    if (!noted)
        return;
    before = errno;
    for (int i = 0; i < NOTED; i++)
        if (noted >> i & 1)
            shim_wait(files[i].fd, false);
    errno = before;
}

/* Ends the traced waits, and looks for a lost service, once the kernel has answered a waiting call. */
static int after_poll(const struct pollfd *files, nfds_t count, uint64_t noted, int result)
{
    end_waits(files, noted);
    if (result > 0)
        loss_look(files, count);
    return result;
}

static bool waits(const struct timespec *limit)
{
    struct timespec copy;

    if (!prepares_waits())
        return false;
    return !limit || (user_get(&copy, limit, sizeof copy) == 0 && (copy.tv_sec != 0 || copy.tv_nsec != 0));
}

static void begin_wait(bool has_buffer)
{
    if (has_buffer)
        step_begin_of_buffer();
    else
        step_begin(STEP_WAIT);
    follow_wait(true);
}

/* Begins a step if any of a poll's first 64 descriptors is a file or a buffer. Returns whether it is a step. */
static bool begin_step(const struct pollfd *files, nfds_t count)
{
    bool has_file = false, has_buffer = false;
    struct pollfd copy[NOTED];
    uint64_t inode;

    count = count < NOTED ? count : NOTED;
    if (!step_is_on() || user_get(copy, files, count * sizeof *files))
        return false;
    for (nfds_t i = 0; i < count; i++) {
        enum bim_mark mark = shim_mark(copy[i].fd, &inode);

        has_file |= mark == BIM_FILE_MARK;
        has_buffer |= mark == BIM_BUFFER_MARK;
    }
    if (has_file || has_buffer)
        begin_wait(has_buffer);
    return has_file || has_buffer;
}

/* Stores what a poll found of a descriptor. Returns whether it is a file or a buffer, and ready. */
static bool find_ready(const struct pollfd *file, struct step_found *found)
{
    enum bim_mark mark = file->revents & (POLLIN | POLLOUT) ? shim_mark(file->fd, &found->of) : 0;

    found->value = mark != BIM_BUFFER_MARK ? 0 : file->revents & POLLOUT ? DMA_BUF_SYNC_WRITE : DMA_BUF_SYNC_READ;
    return mark == BIM_FILE_MARK || mark == BIM_BUFFER_MARK;
}

/* Ends a step that found so many files and buffers ready. */
static void end_found(const struct step_found *found, uint32_t ready, int result)
{
    struct step step = { .kind = STEP_WAIT, .error = result < 0 ? errno : 0 };

    follow_wait(false);
    if (ready > 0) {
        step.status = 1;
        step.of = found[0].of;
        step.value = found[0].value;
        step.more = found + 1;
        step.more_count = ready - 1;
    }
    step_end(&step);
}

static void end_step(const struct pollfd *files, nfds_t count, int result)
{
    struct step_found found[NOTED];
    uint32_t ready = 0;

    for (nfds_t i = 0; result > 0 && i < count && i < NOTED; i++)
        ready += find_ready(&files[i], &found[ready]);
    end_found(found, ready, result);
}

#define POLL(name, parameters, arguments, may_wait)                                       \
    int name parameters;                                                                  \
    EXPORT int name parameters                                                            \
    {                                                                                     \
        NEXT(name);                                                                       \
        bool is_step = begin_step(files, count);                                          \
        uint64_t noted = (may_wait) && prepares_waits() ? begin_waits(files, count) : 0;  \
        int result = after_poll(files, count, noted, next arguments);                     \
                                                                                          \
        if (is_step)                                                                      \
            end_step(files, count, result);                                               \
        return result;                                                                    \
    }

POLL(poll, (struct pollfd *files, nfds_t count, int milliseconds), (files, count, milliseconds), milliseconds != 0)
POLL(ppoll, (struct pollfd *files, nfds_t count, const struct timespec *limit, const sigset_t *mask),
     (files, count, limit, mask), waits(limit))
/* Entry points of programs built with _FORTIFY_SOURCE. */
POLL(__poll_chk, (struct pollfd *files, nfds_t count, int milliseconds, size_t room),
     (files, count, milliseconds, room), milliseconds != 0)
POLL(__ppoll_chk,
     (struct pollfd *files, nfds_t count, const struct timespec *limit, const sigset_t *mask, size_t room),
     (files, count, limit, mask, room), waits(limit))

/* Fills in the descriptors of a set as pollfds, starting at `*from`, and stores in `*from` where the next batch
 * starts. */
static nfds_t files_of(const fd_set *set, int *from, int count, struct pollfd *files)
{
    nfds_t found = 0;

    for (; set && *from < count && found < NOTED; ++*from)
        if (FD_ISSET(*from, set))
            files[found++] = (struct pollfd){ *from, POLLIN, 0 };
    return found;
}

/* Fills in the first batch of a set whose memory may be unreadable. */
static nfds_t files_before(const fd_set *set, int count, struct pollfd *files)
{
    fd_set copy;
    int from = 0;

    count = count < FD_SETSIZE ? count : FD_SETSIZE;
    if (!set || count <= 0 || user_get(&copy, set, (size_t)(count + 63) / 64 * 8))
        return 0;
    return files_of(&copy, &from, count, files);
}

/* The kernel cuts the count of a select at the size of the process's table, which own descriptors may have made larger. */
static int selected(int count)
{
    int before = errno;

    if (count > FD_SETSIZE && shim_is_on())
        count = numbers_selected(count, shim_is_own, shim_above_own());
    errno = before;
    return count;
}

/* select reports a hang-up as readable, so the descriptors are polled. */
static void look_at_bits(const fd_set *set, int count)
{
    struct pollfd files[NOTED];
    nfds_t found;

    for (int from = 0; (found = files_of(set, &from, count, files)) > 0;)
        if (call_poll(files, found, 0) > 0)
            loss_look(files, found);
}

/* What is done around a select: the first of its readable descriptors. */
struct selection {
    struct pollfd files[NOTED];
    nfds_t count;
    uint64_t noted;
    bool is_step;
};

static void begin_select(struct selection *selection, const fd_set *readable, int count, bool is_traced)
{
    selection->noted = selection->count = 0;
    if (is_traced || step_is_on())
        selection->count = files_before(readable, count, selection->files);
    selection->is_step = begin_step(selection->files, selection->count);
    if (is_traced)
        selection->noted = begin_waits(selection->files, selection->count);
}

static void end_select_step(struct selection *selection, const fd_set *readable, int result)
{
    for (nfds_t i = 0; result > 0 && i < selection->count; i++)
        selection->files[i].revents = FD_ISSET(selection->files[i].fd, readable) ? POLLIN : 0;
    end_step(selection->files, selection->count, result);
}

static int after_select(int count, const fd_set *readable, const fd_set *writable, struct selection *selection, int result)
{
    int before = errno;

    end_waits(selection->files, selection->noted);
    if (selection->is_step)
        end_select_step(selection, readable, result);
    if (result > 0 && shim_is_on()) {
        look_at_bits(readable, count);
        look_at_bits(writable, count);
    }
    errno = before;
    return result;
}

static bool waits_until(const struct timeval *limit)
{
    struct timeval copy;

    if (!prepares_waits())
        return false;
    return !limit || (user_get(&copy, limit, sizeof copy) == 0 && (copy.tv_sec != 0 || copy.tv_usec != 0));
}

EXPORT int select(int count, fd_set *readable, fd_set *writable, fd_set *others, struct timeval *limit)
{
    NEXT(select);
    struct selection selection;

    begin_select(&selection, readable, count, waits_until(limit));
    count = selected(count);
    return after_select(count, readable, writable, &selection, next(count, readable, writable, others, limit));
}

EXPORT int pselect(int count, fd_set *readable, fd_set *writable, fd_set *others, const struct timespec *limit,
                   const sigset_t *mask)
{
    NEXT(pselect);
    struct selection selection;

    begin_select(&selection, readable, count, waits(limit));
    count = selected(count);
    return after_select(count, readable, writable, &selection, next(count, readable, writable, others, limit, mask));
}

/* Linux's epoll refuses files without a poll operation, such as timelines. */
EXPORT int epoll_ctl(int set, int how, int file, struct epoll_event *event)
{
    NEXT(epoll_ctl);
    uint64_t inode;
    int result;

    if (how == EPOLL_CTL_ADD && shim_mark(file, &inode) == BIM_TIMELINE_MARK)
        return shim_result(EPERM);
    result = next(set, how, file, event);
    if (result == 0 && step_is_on())
        watched_note(set, how, file, event);
    return result;
}

/* Ends a step of a wait that its events may be of. */
static void end_epoll_step(int set, const struct epoll_event *events, int result)
{
    struct step_found found[NOTED];
    int ready = result > 0 ? watched_find(set, events, result, found, NOTED) : 0;

    if (ready < 0)
        recorder_lack(LOG_LACKS_EPOLL);
    end_found(found, ready < 0 ? 0 : ready, result);
}

static int after_epoll(int set, const struct epoll_event *events, int result)
{
    int before = errno;
    bool has_hung_up = false;

    for (int i = 0; i < result; i++)
        has_hung_up |= (events[i].events & EPOLLHUP) != 0;
    if (has_hung_up && shim_is_on())
        loss_look_at_set(set);
    shuffle_pause();
    errno = before;
    return result;
}

#define EPOLL(name, parameters, arguments, may_wait)     \
    int name parameters;                                 \
    EXPORT int name parameters                           \
    {                                                    \
        NEXT(name);                                      \
        bool is_step = step_is_on() && watched_has(set); \
        int result;                                      \
                                                         \
        if (is_step)                                     \
            begin_wait(false);                           \
        if (may_wait)                                    \
            shim_before_wait();                          \
        result = after_epoll(set, events, next ? next arguments : shim_result(ENOSYS)); \
        if (is_step)                                     \
            end_epoll_step(set, events, result);         \
        return result;                                   \
    }

EPOLL(epoll_wait, (int set, struct epoll_event *events, int room, int milliseconds), (set, events, room, milliseconds),
      milliseconds != 0)
EPOLL(epoll_pwait, (int set, struct epoll_event *events, int room, int milliseconds, const sigset_t *mask),
      (set, events, room, milliseconds, mask), milliseconds != 0)
EPOLL(epoll_pwait2,
      (int set, struct epoll_event *events, int room, const struct timespec *limit, const sigset_t *mask),
      (set, events, room, limit, mask), waits(limit))
