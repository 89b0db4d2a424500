/* What goes wrong in the schedules that --predict follows, each once: one mistake is found in several recordings, or at several
 * calls of a loop. A mistake is named by the places of the calls at which it shows. */
#ifndef BIM_RUN_MISTAKES_H
#define BIM_RUN_MISTAKES_H

#include "explore.h"
#include "noted.h"
#include "verdict.h"

#include <stdbool.h>
#include <stddef.h>

struct mistake {
    int verdict; /* the gravest: that it happens, else that it is harmless, else that it was not made */
    struct mistake *next;
    char name[];
};

struct mistakes {
    struct mistake *first, **end;
};

void mistakes_begin(struct mistakes *mistakes);
/* Returns the mistake of a shown schedule of a plan, which is added unless it was found before, or NULL if there is no memory. */
struct mistake *mistakes_find(struct mistakes *mistakes, const struct noted *plan, const struct shown *shown);
/* Notes how a schedule of the mistake ended. */
void mistakes_judge(struct mistake *mistake, int verdict);
/* Says each with its verdict, and how many there are. Returns whether any happens. */
bool mistakes_tell(const struct mistakes *mistakes);
void mistakes_free(struct mistakes *mistakes);

#endif
