/* posix_spawn(3), and the calls that wait for a child process, as system(3) does. If threads have names, a child gets its name from
 * the thread that makes it; shim.c names the children of fork(3). */
#define _GNU_SOURCE
#include "shim.h"
#include "thread.h"
#include "wire.h"

#include <errno.h>
#include <spawn.h>
#include <stdio.h>
#include <stdlib.h>
#include <string.h>
#include <sys/resource.h>
#include <sys/wait.h>
#include <unistd.h>

typedef int spawn_call(pid_t *, const char *, const posix_spawn_file_actions_t *, const posix_spawnattr_t *, char *const[],
                       char *const[]);

/* Returns whether a word of an environment is this variable. */
static bool is_variable(const char *word, const char *name)
{
    size_t length = strlen(name);

    return strncmp(word, name, length) == 0 && word[length] == '=';
}

/* Returns a copy of an environment with another word for one variable, or NULL. The caller frees it. */
static char **with_word(char *const words[], const char *name, char *word)
{
    size_t count = 0, kept = 0;
    char **copy;

    while (words && words[count])
        count++;
    copy = malloc((count + 2) * sizeof *copy);
    for (size_t i = 0; copy && i < count; i++)
        if (!is_variable(words[i], name))
            copy[kept++] = words[i];
    if (copy) {
        copy[kept++] = word;
        copy[kept] = NULL;
    }
    return copy;
}

static int spawn(spawn_call *next, pid_t *child, const char *path, const posix_spawn_file_actions_t *actions,
                 const posix_spawnattr_t *how, char *const arguments[], char *const environment[])
{
    char word[sizeof BIM_THREAD + THREAD_NAME_ROOM];
    struct thread_name name;
    char **words;
    int error;

    if (!shim_is_on() || !thread_is_on())
        return next(child, path, actions, how, arguments, environment);
    name = thread_draw();
    snprintf(word, sizeof word, "%s=%s", BIM_THREAD, name.text);
    words = with_word(environment, BIM_THREAD, word);
    error = words ? next(child, path, actions, how, arguments, words) : ENOMEM;
    free(words);
    return error;
}

#define SPAWN(name)                                                                                                \
    EXPORT int name(pid_t *child, const char *path, const posix_spawn_file_actions_t *actions,                     \
                    const posix_spawnattr_t *how, char *const arguments[], char *const environment[])              \
    {                                                                                                              \
        NEXT(name);                                                                                                \
                                                                                                                   \
        return spawn(next, child, path, actions, how, arguments, environment);                                     \
    }

SPAWN(posix_spawn)
SPAWN(posix_spawnp)

static pid_t reaped(pid_t child, int how)
{
    if (child > 0 && (WIFEXITED(how) || WIFSIGNALED(how)))
        thread_reap(child);
    return child;
}

#define WAIT(name, parameters, arguments)                              \
    pid_t name parameters;                                             \
    EXPORT pid_t name parameters                                       \
    {                                                                  \
        NEXT(name);                                                    \
        int own;                                                       \
        pid_t child;                                                   \
                                                                       \
        if (!shim_is_on() || !thread_is_on())                          \
            return next arguments;                                     \
        how = how ? how : &own;                                        \
        child = next arguments;                                        \
        return child > 0 ? reaped(child, *how) : child;                \
    }

WAIT(wait, (int *how), (how))
WAIT(waitpid, (pid_t process, int *how, int options), (process, how, options))
WAIT(wait3, (int *how, int options, struct rusage *used), (how, options, used))
WAIT(wait4, (pid_t process, int *how, int options, struct rusage *used), (process, how, options, used))

EXPORT int waitid(idtype_t kind, id_t id, siginfo_t *found, int options)
{
    NEXT(waitid);
    siginfo_t own;
    int result;

    if (!shim_is_on() || !thread_is_on())
        return next(kind, id, found, options);
    found = found ? found : &own;
    found->si_pid = 0;
    result = next(kind, id, found, options);
    if (result == 0 && found->si_pid > 0 && !(options & WNOWAIT) &&
        (found->si_code == CLD_EXITED || found->si_code == CLD_KILLED || found->si_code == CLD_DUMPED))
        thread_reap(found->si_pid);
    return result;
}

/* The C library waits in these for a child whose number it doesn't tell. */
EXPORT int system(const char *command)
{
    NEXT(system);
    int how = next(command), before = errno;

    if (shim_is_on())
        thread_reap_ended();
    errno = before;
    return how;
}

EXPORT int pclose(FILE *stream)
{
    NEXT(pclose);
    int how = next(stream), before = errno;

    if (shim_is_on())
        thread_reap_ended();
    errno = before;
    return how;
}
