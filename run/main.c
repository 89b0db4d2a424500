/* bimphlai-run: runs a program, and provides a fence service for it and for all its child processes. */
#define _GNU_SOURCE
#include "folder.h"
#include "guard.h"
#include "launch.h"
#include "options.h"
#include "plan.h"
#include "predict.h"
#include "processes.h"
#include "program.h"
#include "report.h"
#include "supervise.h"
#include "trace.h"
#include "verdict.h"
#include "wire.h"

#include <errno.h>
#include <fcntl.h>
#include <limits.h>
#include <stdio.h>
#include <stdlib.h>
#include <unistd.h>

/* Creates the trace. Stores its absolute path, since a program may change its folder. Returns 0 or an exit status. */
static int begin_trace(const struct options *options, char *path)
{
    int error;

    path[0] = 0;
    if (options->trace) {
        error = trace_begin(options->trace);
        if (!error && !realpath(options->trace, path))
            error = errno;
        return error ? fault(options->trace, error) : 0;
    }
    if (!options_trace(options))
        return 0;
    error = report_temporary(path);
    return error ? fault("a file for the trace", error) : 0;
}

/* Sets an environment variable for the program, or removes the variable of an enclosing run. Returns 0 or an exit
 * status. */
static int set_variable(const char *name, const char *value)
{
    return (value ? setenv(name, value, 1) : unsetenv(name)) ? fault("the environment", errno) : 0;
}

static int begin_check(const struct options *options)
{
    char path[PATH_MAX];
    bool checks = options_check(options);
    int error = checks ? report_findings(path) : 0;

    return error ? fault("a file for what is found", error) : set_variable(BIM_CHECK, checks ? path : NULL);
}

/* Gives the program's threads the schedule to follow, and no names otherwise. */
static int begin_follow(const struct options *options)
{
    static const char *const VARIABLES[] = { BIM_THREADS, BIM_THREAD, BIM_FOLLOW, NULL };
    int status = 0;

    for (int i = 0; VARIABLES[i] && !status; i++)
        status = set_variable(VARIABLES[i], NULL);
    return status || !options->schedule ? status : verdict_begin(options);
}

/* Makes the files in which the program's threads note what a plan needs. With --follow they have names anyway. */
static int begin_plan(const struct options *options)
{
    char log[PATH_MAX], processes[PATH_MAX];
    int error, status;

    if (!options->plan)
        return set_variable(BIM_PLAN, NULL);
    error = report_path(FOLDER_PLAN, log);
    if (!error)
        error = log_make(log, options->calls ? options->calls : PLAN_LINES);
    if (!error)
        error = report_path(FOLDER_THREADS, processes);
    if (!error && !options->schedule)
        error = processes_make(processes);
    if (error)
        return fault("a file for the plan", error);
    status = set_variable(BIM_PLAN, log);
    return status ? status : set_variable(BIM_THREADS, processes);
}

static int run(const struct options *options, const char *trace)
{
    if (options->is_local && !options_report(options)) {
        int status = launch_prepare(BIM_LOCAL, trace);

        return status ? status : launch_become(options->program);
    }
    return supervise(options, trace);
}

/* Opens closed standard streams, whose numbers the service's descriptors would get. They are closed again for the
 * program. */
static void open_streams(void)
{
    for (int file = STDIN_FILENO; file <= STDERR_FILENO; file++)
        if (fcntl(file, F_GETFD) < 0)
            open("/dev/null", O_RDWR | O_CLOEXEC);
}

int main(int count, char **words)
{
    struct options options;
    char path[PATH_MAX];
    int status;

    open_streams();
    guard_note_words(count, words);
    status = options_read(&options, count, words);
    if (status >= 0)
        return status;
    if (options.predicts)
        return predict(&options, words[0]);
    status = program_check(options.program[0]);
    if (!status)
        status = set_variable(BIM_SHUFFLE, options.seed);
    if (!status)
        status = set_variable(BIM_DIRECT, options.is_direct ? "1" : NULL);
    if (!status)
        status = begin_trace(&options, path);
    if (!status)
        status = begin_check(&options);
    if (!status)
        status = begin_follow(&options);
    if (!status)
        status = begin_plan(&options);
    if (!status)
        status = run(&options, path[0] ? path : NULL);
    report_remove_temporary();
    return status;
}
