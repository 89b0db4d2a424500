/* Runs `fencectl trace` on the trace of a run. */
#ifndef BIM_RUN_REPORT_H
#define BIM_RUN_REPORT_H

#include "options.h"

/* Stores the path of a temporary file, whose name folder.h has. Returns 0 or an errno. */
int report_path(const char *name, char *path);
/* Makes an empty temporary file for a trace that isn't to be kept. Returns 0 or an errno. */
int report_temporary(char *path);
/* Makes an empty temporary file for what --check finds. Returns 0 or an errno. */
int report_findings(char *path);
/* Removes these files, if they were made. */
void report_remove_temporary(void);
/* Says on standard error what --check found, and prints the report under --report. Returns the exit status: the program's, but 1
 * if that is 0 and, under --require, a fence hangs, a rule was broken or --check found an access, or, under --require-fences, no
 * fence was made; under --follow the verdict's. */
int report(const struct options *options, const char *trace, int status);

#endif
