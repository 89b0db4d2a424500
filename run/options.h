/* Reads the command line of bimphlai-run. */
#ifndef BIM_RUN_OPTIONS_H
#define BIM_RUN_OPTIONS_H

#include <stdbool.h>
#include <stddef.h>

enum { STATUS_OPTIONS = 2 };

struct options {
    bool is_local, is_direct, reports, requires, requires_fences, checks, predicts, is_verbose;
    const char *trace; /* a file name, or NULL */
    const char *seed;  /* decimal digits, or NULL */
    const char *schedule; /* to follow: a script, or a plan, or NULL */
    const char *finding;  /* decimal digits: which schedule of the plan, or NULL */
    unsigned long long patience; /* of a thread that waits for its turn, in milliseconds */
    const char *plan;  /* a file name, or NULL */
    unsigned long long calls; /* how many calls a plan may have, or 0 */
    bool excludes;            /* whether a mutex only excludes, in a plan */
    unsigned long long runs;  /* of how many runs --predict makes plans, or 0 */
    char **kept;              /* the words of the other options than --predict and --runs */
    size_t kept_count;
    char **program;    /* with its arguments */
};

/* Returns -1, or the exit status if bimphlai-run is to end: after it has printed help, the version or a usage error. Moves words. */
int options_read(struct options *options, int count, char **words);
/* Returns whether accesses are checked. */
bool options_check(const struct options *options);
/* Returns whether the trace is read at the end of the run. */
bool options_trace(const struct options *options);
/* Returns whether anything is told at the end of the run. */
bool options_report(const struct options *options);

#endif
