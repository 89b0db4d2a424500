#define _GNU_SOURCE
#include "launch.h"

#include "program.h"
#include "say.h"
#include "wire.h"

#include <errno.h>
#include <limits.h>
#include <stdio.h>
#include <stdlib.h>
#include <string.h>
#include <sys/wait.h>
#include <unistd.h>

enum { SIGNALLED_STATUS = 128 };

int fault(const char *what, int error)
{
    say("%s: %s", what, strerror(error));
    return STATUS_FAULT;
}

bool find_beside(const char *const folders[], const char *name, char *path)
{
    char own[PATH_MAX];
    ssize_t length = readlink("/proc/self/exe", own, sizeof own - 1);

    if (length < 0)
        return false;
    own[length] = 0;
    *strrchr(own, '/') = 0;
    for (int i = 0; folders[i]; i++)
        if (snprintf(path, PATH_MAX, "%s/%s%s", own, folders[i], name) < PATH_MAX && access(path, R_OK) == 0)
            return true;
    return false;
}

void launch_find_fencectl(char *path)
{
    static const char *const FOLDERS[] = { "", "../crates/fencectl/out/", NULL };

    if (!find_beside(FOLDERS, "fencectl", path))
        strcpy(path, "fencectl");
}

/* Adds a word to an environment variable, before or after its present value. */
static int add(const char *variable, const char *word, bool is_first)
{
    const char *had = getenv(variable);
    char *text;
    int failed;

    if (!had || !*had)
        return setenv(variable, word, 1);
    if (strstr(had, word))
        return 0;
    if (asprintf(&text, "%s:%s", is_first ? word : had, is_first ? had : word) < 0)
        return -1;
    failed = setenv(variable, text, 1);
    free(text);
    return failed;
}

int launch_prepare(const char *service, const char *trace)
{
    static const char *const FOLDERS[] = { "../lib/", "", NULL };
    char found[PATH_MAX], library[PATH_MAX];

    if (!find_beside(FOLDERS, "libbimphlai-run.so", found) || !realpath(found, library))
        return fault("libbimphlai-run.so", ENOENT);
    if (strpbrk(library, " :"))
        return fault("a path with a blank or a colon can't be preloaded", EINVAL);
    if (setenv(BIM_SERVICE, service, 1) || (trace ? setenv(BIM_TRACE, trace, 1) : unsetenv(BIM_TRACE)))
        return fault("the environment", errno);
    /* gcc's sanitizer is a shared library that insists on being loaded first; it works behind this library too. */
    if (add("LD_PRELOAD", library, true) || add("ASAN_OPTIONS", "verify_asan_link_order=0", false))
        return fault("the environment", ENOMEM);
    return 0;
}

int launch_become(char **program)
{
    int error;

    execvp(program[0], program);
    error = errno;
    say("%s: %s", program[0], strerror(error));
    return error == ENOENT ? PROGRAM_NOT_FOUND : PROGRAM_CANT_RUN;
}

int launch_status(int waited)
{
    return WIFSIGNALED(waited) ? SIGNALLED_STATUS + WTERMSIG(waited) : WEXITSTATUS(waited);
}
