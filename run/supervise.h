/* Supervises the program while it runs, and ends the run. */
#ifndef BIM_RUN_SUPERVISE_H
#define BIM_RUN_SUPERVISE_H

#include "options.h"

/* Runs the program, with a server unless the service is local. Returns the exit status of bimphlai-run. */
int supervise(const struct options *options, const char *trace);

#endif
