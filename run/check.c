#define _GNU_SOURCE
#include "check.h"

#include "callers.h"
#include "calls.h"
#include "wire.h"

#include <stdio.h>
#include <stdlib.h>
#include <string.h>
#include <sys/prctl.h>

/* A program that does wrong in each of its frames is not noted forever. */
enum { NOTES = 1000 };

static char *path;
static _Atomic int notes;

void check_begin(void)
{
    const char *text = getenv(BIM_CHECK);

    if (!text)
        return;
    path = strdup(text);
    callers_begin();
}

bool check_is_on(void)
{
    return path;
}

void check_note(bool writes)
{
    char begin[BIM_TASK_ROOM + 32], task[BIM_TASK_ROOM + 1] = "";

    if (notes++ >= NOTES)
        return;
    prctl(PR_GET_NAME, task);
    for (char *byte = task; *byte; byte++)
        *byte = *byte == '\t' || *byte == '\n' ? '?' : *byte;
    snprintf(begin, sizeof begin, "%s\t%s-%d", writes ? "write" : "read", task, (int)syscall(SYS_gettid));
    callers_note(path, begin);
}
