#define _GNU_SOURCE
#include "callers.h"

#include "calls.h"
#include "log.h"

#include <dlfcn.h>
#include <errno.h>
#include <execinfo.h>
#include <limits.h>
#include <link.h>
#include <stdbool.h>
#include <stdint.h>
#include <stdio.h>
#include <string.h>

enum { FRAMES = 32, PLACE_ROOM = PATH_MAX + 32, LINE_ROOM = (LOG_FRAMES + 1) * PLACE_ROOM };

void callers_begin(void)
{
    void *frames[1];

    /* The first call loads a library, which no later call may wait for. */
    backtrace(frames, 1);
}

/* Returns the object of an address, or NULL. */
static const struct link_map *object_of(void *address)
{
    Dl_info found;
    struct link_map *object;

    return dladdr1(address, &found, (void **)&object, RTLD_DL_LINKMAP) ? object : NULL;
}

static int write_place(char *text, size_t room, void *frame)
{
    const struct link_map *object = object_of(frame);
    char program[PATH_MAX];
    const char *name = object ? object->l_name : "?";

    if (!*name) {
        ssize_t length = readlink("/proc/self/exe", program, sizeof program - 1);

        program[length < 0 ? 0 : length] = 0;
        name = program;
    }
    /* A frame has the address behind its call. */
    return snprintf(text, room, "\t%s\t%#lx", name, (unsigned long)((uintptr_t)frame - (object ? object->l_addr : 0) - 1));
}

/* Writes the places of the library's callers. A sanitizer's `backtrace` has a frame before this library's. */
static int write_callers(char *text, size_t room)
{
    const struct link_map *own = object_of(__extension__(void *)callers_note);
    void *frames[FRAMES];
    int count = backtrace(frames, FRAMES), length = 0, shown = 0;
    bool was_own = false;

    for (int i = 0; i < count && shown < LOG_FRAMES; i++) {
        bool is_own = object_of(frames[i]) == own;

        was_own |= is_own;
        if (!was_own || is_own)
            continue;
        length += write_place(text + length, room - length, frames[i]);
        shown++;
    }
    return length;
}

void callers_note(const char *path, const char *begin)
{
    int before = errno, length, file;
    char line[LINE_ROOM];

    length = snprintf(line, PLACE_ROOM, "%s", begin);
    length += write_callers(line + length, sizeof line - length - 1);
    line[length++] = '\n';
    file = syscall(SYS_openat, AT_FDCWD, path, O_WRONLY | O_APPEND | O_CLOEXEC, 0);
    if (file >= 0) {
        call_write(file, line, length);
        call_close(file);
    }
    errno = before;
}
