#define _GNU_SOURCE
#include "predict.h"

#include "explore.h"
#include "folder.h"
#include "launch.h"
#include "mistakes.h"
#include "noted.h"
#include "report.h"
#include "say.h"
#include "verdict.h"

#include <errno.h>
#include <limits.h>
#include <signal.h>
#include <stdio.h>
#include <stdlib.h>
#include <string.h>
#include <sys/prctl.h>
#include <sys/wait.h>
#include <unistd.h>

enum { MORE_WORDS = 4, NUMBER_ROOM = 24 };

/* What all recordings are made with, and what they have found. */
struct prediction {
    const struct options *options;
    char *tool; /* how this program is called */
    char folder[PATH_MAX], plan[PATH_MAX];
    struct mistakes mistakes;
    bool is_bounded; /* a plan has too many states */
};

/* Returns the words of a run that has other options in place of --predict, or NULL. */
static char **words_of_run(const struct prediction *prediction, const char *const more[MORE_WORDS])
{
    const struct options *options = prediction->options;
    size_t count = 0, at = 0;
    char **run;

    while (options->program[count])
        count++;
    run = calloc(options->kept_count + MORE_WORDS + count + 3, sizeof *run);
    if (!run)
        return NULL;
    run[at++] = prediction->tool;
    for (int i = 0; i < MORE_WORDS && more[i]; i++)
        run[at++] = (char *)more[i];
    for (size_t i = 0; i < options->kept_count; i++)
        run[at++] = options->kept[i];
    run[at++] = "--";
    memcpy(run + at, options->program, count * sizeof *run);
    return run;
}

/* Becomes bimphlai-run (exec). If this process is killed, the run gets a signal, which it forwards to the program. */
static void become_run(char **run)
{
    prctl(PR_SET_PDEATHSIG, SIGTERM);
    execv("/proc/self/exe", run);
    _exit(fault("/proc/self/exe", errno));
}

/* Runs the program with other options in place of --predict. Returns the exit status. */
static int run_with(const struct prediction *prediction, const char *const more[MORE_WORDS])
{
    char **run = words_of_run(prediction, more);
    pid_t child = run ? fork() : -1;
    int waited;

    if (child == 0)
        become_run(run);
    free(run);
    while (child > 0 && waitpid(child, &waited, 0) < 0)
        if (errno != EINTR)
            return STATUS_FAULT;
    return child < 0 ? fault("a run of the program", errno) : launch_status(waited);
}

/* Has the program follow a schedule of the plan, unless its mistake has happened already. Returns 0, or the exit status of a run
 * that failed otherwise. */
static int follow(const struct prediction *prediction, size_t number, size_t count, struct mistake *mistake)
{
    char word[NUMBER_ROOM];
    int status;

    if (mistake->verdict == VERDICT_HAPPENS) {
        say("schedule %zu of %zu: as before (%s)", number, count, mistake->name);
        return 0;
    }
    say("schedule %zu of %zu:", number, count);
    snprintf(word, sizeof word, "%zu", number);
    status = run_with(prediction, (const char *[MORE_WORDS]){ "--follow", prediction->plan, word });
    if (status != VERDICT_HAPPENS && status != VERDICT_HARMLESS && status != VERDICT_NOT_REACHED)
        return status;
    mistakes_judge(mistake, status);
    return 0;
}

/* Finds the mistakes of the schedules that are shown. Returns 0 or an errno. */
static int find_all(struct prediction *prediction, const struct noted *plan, struct mistake **all, size_t count)
{
    int error = 0;

    for (size_t i = 0; i < count && !error; i++) {
        struct shown shown;

        error = explore_read(&shown, prediction->folder, i + 1);
        all[i] = error ? NULL : mistakes_find(&prediction->mistakes, plan, &shown);
        explore_free(&shown);
        error = error ? error : all[i] ? 0 : ENOMEM;
    }
    return error;
}

/* Has the program follow each schedule of the plan that is shown. Returns 0 or an exit status. */
static int follow_all(struct prediction *prediction, const struct noted *plan)
{
    size_t count = explore_count(prediction->folder);
    struct mistake **all = calloc(count + 1, sizeof *all);
    int error = all ? find_all(prediction, plan, all, count) : ENOMEM;
    int status = error ? fault(prediction->plan, error) : 0;

    /* A run that is killed leaves no files that the next one doesn't know. */
    explore_remove(prediction->folder);
    for (size_t i = 0; i < count && !status; i++)
        status = follow(prediction, i + 1, count, all[i]);
    free(all);
    return status;
}

/* Explores the plan of a recorded run, and has the program follow it. Returns 0 or an exit status. */
static int predict_from(struct prediction *prediction)
{
    struct noted plan;
    int explored = explore(prediction->plan, prediction->folder, true), status;

    if (explored > EXPLORE_BOUND)
        return explored;
    prediction->is_bounded |= explored == EXPLORE_BOUND;
    if (!noted_read(&plan, prediction->plan))
        return STATUS_FAULT;
    status = follow_all(prediction, &plan);
    noted_free(&plan);
    return status;
}

/* Records a run of the program, the first one undisturbed, and the others under --shuffle. Returns 0 or its exit status. */
static int record(const struct prediction *prediction, unsigned long long run)
{
    char seed[NUMBER_ROOM];
    int status;

    snprintf(seed, sizeof seed, "%llu", run - 1);
    if (run > 1)
        say("recording %llu of %llu, with --shuffle %s:", run, prediction->options->runs, seed);
    status = run_with(prediction, (const char *[MORE_WORDS]){ "--plan", prediction->plan, run > 1 ? "--shuffle" : NULL, seed });
    if (status)
        say("the recorded run ended with status %d, so nothing is predicted%s", status, run > 1 ? " of it" : "");
    return status;
}

static int tell(const struct prediction *prediction, int failed)
{
    if (!prediction->mistakes.first && !prediction->is_bounded && !failed)
        say("in no order of the recorded calls that the plan allows does anything fail");
    if (prediction->mistakes.first && mistakes_tell(&prediction->mistakes))
        return VERDICT_HAPPENS;
    return failed ? failed : prediction->is_bounded ? EXPLORE_BOUND : 0;
}

/* Predicts from all recorded runs. Nothing is predicted if the first one fails, but another one may fail by its delays. */
static int predict_all(struct prediction *prediction)
{
    int failed = 0;
    unsigned long long run = 0;

    do {
        int recorded = record(prediction, ++run), status = recorded ? 0 : predict_from(prediction);

        if (status || (recorded && run == 1) || recorded == STATUS_FAULT)
            return status ? status : recorded;
        failed = failed ? failed : recorded;
    } while (run < prediction->options->runs);
    return tell(prediction, failed);
}

int predict(const struct options *options, char *tool)
{
    struct prediction prediction = { .options = options, .tool = tool };
    int error = report_path(".", prediction.folder), status;

    mistakes_begin(&prediction.mistakes);
    if (!error)
        error = report_path(FOLDER_PREDICTED, prediction.plan);
    status = error ? fault("a folder for the plan", error) : predict_all(&prediction);
    mistakes_free(&prediction.mistakes);
    report_remove_temporary();
    return status;
}
