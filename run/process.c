#define _GNU_SOURCE
#include "process.h"

#include "calls.h"

#include <errno.h>
#include <stdio.h>
#include <string.h>
#include <sys/resource.h>

enum { STATUS_BYTES = 512, PIECE_BYTES = 8192 };

struct process process_open(pid_t number)
{
#ifdef BIM_PLAIN_FORK
    return (struct process){ number, -1 };
#else
    return (struct process){ number, syscall(SYS_pidfd_open, number, 0) };
#endif
}

void process_close(struct process *process)
{
    if (process->number > 0 && process->handle >= 0)
        call_close(process->handle);
    *process = (struct process){ 0, -1 };
}

static int open_file(pid_t number, const char *name)
{
    char path[64];

    snprintf(path, sizeof path, "/proc/%d/%s", (int)number, name);
    return open(path, O_RDONLY | O_CLOEXEC);
}

ssize_t process_read(pid_t number, const char *name, char *text, size_t room)
{
    size_t all = 0;
    ssize_t length = -1;
    int file = open_file(number, name);

    if (file < 0)
        return -1;
    while (all < room && (length = call_read(file, text + all, room - all)) > 0)
        all += length;
    call_close(file);
    return length < 0 ? -1 : (ssize_t)all;
}

/* The end of each piece is kept, since the bytes may begin there. */
bool process_has(pid_t number, const char *name, const char *bytes, size_t length)
{
    char piece[PIECE_BYTES];
    size_t all = 0, kept;
    ssize_t more;
    bool has = false;
    int file = open_file(number, name);

    if (file < 0)
        return false;
    while (!has && (more = call_read(file, piece + all, sizeof piece - all)) > 0) {
        all += more;
        has = memmem(piece, all, bytes, length);
        kept = all < length - 1 ? all : length - 1;
        memmove(piece, piece + all - kept, kept);
        all = kept;
    }
    call_close(file);
    return has;
}

/* Without /proc, a process that wasn't reaped counts as running. */
static bool number_goes_on(pid_t number)
{
    char text[STATUS_BYTES + 1] = { 0 };
    const char *after_name;

    if (process_read(number, "stat", text, STATUS_BYTES) < 0)
        return kill(number, 0) == 0 || errno == EPERM;
    after_name = strrchr(text, ')');
    return after_name && !strchr("ZX", after_name[2]);
}

struct pollfd process_end(const struct process *process)
{
    return (struct pollfd){ process->number > 0 ? process->handle : -1, POLLIN, 0 };
}

bool process_goes_on(const struct process *process)
{
    struct pollfd end = process_end(process);

    if (process->number <= 0)
        return false;
    return end.fd >= 0 ? call_poll(&end, 1, 0) <= 0 : number_goes_on(process->number);
}

bool process_kill(const struct process *process)
{
    if (!process_goes_on(process))
        return false;
    if (process->handle >= 0)
        return syscall(SYS_pidfd_send_signal, process->handle, SIGKILL, NULL, 0) == 0;
    return kill(process->number, SIGKILL) == 0;
}

void process_raise_limit(void)
{
    struct rlimit files;

    if (getrlimit(RLIMIT_NOFILE, &files))
        return;
    files.rlim_cur = files.rlim_max;
    setrlimit(RLIMIT_NOFILE, &files);
}
