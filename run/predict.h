/* --predict: records runs of a program as plans (--plan), explores each plan, and has the program follow each schedule that is
 * shown (--follow), until what goes wrong at a place has happened once. Each of these runs is a process of its own. */
#ifndef BIM_RUN_PREDICT_H
#define BIM_RUN_PREDICT_H

#include "options.h"

/* `tool` is how this program is called. Returns the exit status: 1 if what a plan says happens in any run, 2 if nothing happens but
 * a plan has too many schedules to explore, else 0; and the first recorded run's status, if that isn't 0, or another's, if nothing
 * happens. */
int predict(const struct options *options, char *tool);

#endif
