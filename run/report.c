#define _GNU_SOURCE
#include "report.h"

#include "findings.h"
#include "folder.h"
#include "launch.h"
#include "plan.h"
#include "say.h"
#include "trace.h"
#include "verdict.h"

#include <errno.h>
#include <fcntl.h>
#include <limits.h>
#include <signal.h>
#include <stdio.h>
#include <stdlib.h>
#include <string.h>
#include <sys/wait.h>
#include <unistd.h>

enum { FAILED = 1 };

static char folder[64];

/* Makes the folder of the temporary files. If this process is killed, the next run removes it. Returns 0 or an errno. */
static int make_folder(void)
{
    int lock;

    return folder[0] ? 0 : folder_make(folder, sizeof folder, &lock);
}

int report_path(const char *name, char *path)
{
    int error = make_folder();

    if (!error)
        snprintf(path, PATH_MAX, "%s/%s", folder, name);
    return error;
}

int report_temporary(char *path)
{
    int error = report_path(FOLDER_TRACE, path);

    return error ? error : trace_begin(path);
}

int report_findings(char *path)
{
    int error = report_path(FOLDER_CHECK, path);

    return error ? error : findings_begin(path);
}

void report_remove_temporary(void)
{
    folder_remove(folder);
}

/* Becomes fencectl (exec), whose report goes to standard error or is discarded. Resets the signals that bimphlai-run
 * handles. */
static void become_fencectl(const char *trace, bool reports)
{
    char fencectl[PATH_MAX];
    int nowhere = open("/dev/null", O_RDWR | O_CLOEXEC);
    sigset_t none;

    sigemptyset(&none);
    sigprocmask(SIG_SETMASK, &none, NULL);
    if (!reports)
        dup2(nowhere, STDERR_FILENO);
    dup2(STDERR_FILENO, STDOUT_FILENO);
    dup2(nowhere, STDIN_FILENO);
    unsetenv("LD_PRELOAD");
    launch_find_fencectl(fencectl);
    execlp(fencectl, "fencectl", "trace", trace, (char *)NULL);
    fault("fencectl", errno);
    _exit(STATUS_FAULT);
}

/* Returns whether a trace has any event of a fence, as fencectl requires. */
static bool has_events(const char *trace)
{
    FILE *text = fopen(trace, "re");
    size_t room = 0;
    char *line = NULL;
    bool has = false;

    while (text && !has && getline(&line, &room, text) > 0)
        has = line[0] != '#' && strstr(line, ": dma_fence_");
    free(line);
    if (text)
        fclose(text);
    return has;
}

static int status_of_fencectl(const char *trace, bool reports)
{
    pid_t child = fork();
    int waited;

    if (child == 0)
        become_fencectl(trace, reports);
    while (child > 0 && waitpid(child, &waited, 0) < 0)
        if (errno != EINTR)
            return STATUS_FAULT;
    return child < 0 ? fault("fork", errno) : launch_status(waited);
}

/* Returns whether --check found anything. */
static bool has_findings(void)
{
    char path[PATH_MAX];

    snprintf(path, sizeof path, "%s/" FOLDER_CHECK, folder);
    return findings_tell(path);
}

/* Returns whether the run fails by its trace, or STATUS_FAULT. */
static int look_at_trace(const struct options *options, const char *trace)
{
    int found;

    if (!has_events(trace)) {
        say("the program made no fence");
        return options->requires_fences ? FAILED : 0;
    }
    found = status_of_fencectl(trace, options->reports);
    return found > FAILED ? STATUS_FAULT : options->requires ? found : 0;
}

/* Writes the plan. Returns 0 or an exit status. */
static int make_plan(const struct options *options)
{
    return plan_make(log_opened(), options->plan, options->calls ? options->calls : PLAN_LINES, options->excludes, options->program[0]);
}

int report(const struct options *options, const char *trace, int status)
{
    bool has_any = options_check(options) && has_findings();
    int found = has_any && options->requires ? FAILED : 0;
    int of_trace = options_trace(options) ? look_at_trace(options, trace) : 0;
    int of_plan = options->plan ? make_plan(options) : 0;

    if (options->schedule)
        return verdict_tell(status, has_any);
    return status ? status : of_plan ? of_plan : of_trace ? of_trace : found;
}
