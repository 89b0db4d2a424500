#define _GNU_SOURCE
#include "loss.h"

#include "calls.h"
#include "kept.h"
#include "numbers.h"
#include "shim.h"

#include <stdio.h>
#include <string.h>

enum { LINES_BYTES = 4096 };

static struct kept errors = KEPT_NONE;

void loss_begin(void)
{
    kept_set(&errors, STDERR_FILENO);
}

/* The program may have a file of its own in place of standard error. */
void loss_end(const char *why)
{
    char text[256];
    int length = snprintf(text, sizeof text, "bimphlai-run: process %d: %s; it ends\n", (int)syscall(SYS_getpid), why);

    if (kept_is_there(&errors))
        call_write(STDERR_FILENO, text, length);
    _exit(BIM_LOST);
}

void loss_of_service(void)
{
    loss_end("the service ended, and what it had not signalled will never signal");
}

void loss_look(const struct pollfd *files, nfds_t count)
{
    uint64_t inode;

    for (nfds_t i = 0; i < count; i++)
        if (files[i].revents & POLLHUP && shim_mark(files[i].fd, &inode))
            loss_of_service();
}

/* Returns whether a line of a set's list shows that what the set watches isn't ours. The descriptor that was added may
 * be closed since, and its number may mean another file. */
static bool shows_another(const char *line)
{
    struct pollfd watched = { -1, 0, 0 };
    struct stat found;
    unsigned long listed;
    uint64_t inode;

    if (sscanf(line, "tfd: %d events: %*x data: %*x pos:%*d ino:%lx", &watched.fd, &listed) != 2)
        return strncmp(line, "tfd:", 4) != 0;
    if (call_fstat(watched.fd, &found) || found.st_ino != listed)
        return false;
    if (call_poll(&watched, 1, 0) > 0)
        loss_look(&watched, 1);
    return !shim_mark(watched.fd, &inode) || !(watched.revents & POLLHUP);
}

/* Looks at the whole lines of a text, and returns their length, or -1 if one doesn't show another file. */
static ssize_t look_at_lines(char *text)
{
    char *line = text, *end;

    for (; (end = strchr(line, '\n')); line = end + 1) {
        *end = 0;
        if (!shows_another(line))
            return -1;
    }
    return line - text;
}

static bool all_show_another(int list)
{
    char text[LINES_BYTES + 1];
    size_t begun = 0;
    ssize_t length, seen;

    while ((length = call_read(list, text + begun, LINES_BYTES - begun)) > 0) {
        text[begun += length] = 0;
        seen = look_at_lines(text);
        if (seen < 0)
            return false;
        memmove(text, text + seen, begun -= seen);
    }
    return length == 0;
}

/* An event doesn't say which file it is for, but /proc lists the files of the set. */
static bool lists_others_only(int set)
{
    char path[64];
    bool is_innocent;
    int list;

    snprintf(path, sizeof path, "/proc/self/fdinfo/%d", set);
    list = numbers_open(path);
    is_innocent = list >= 0 && all_show_another(list);
    if (list >= 0)
        call_close(list);
    return is_innocent;
}

/* With --local, the ends are open in this process; only another process's may be closed. */
void loss_look_at_set(int set)
{
    if (!shim_lives() && !lists_others_only(set) && !shim_is_local())
        loss_of_service();
}
