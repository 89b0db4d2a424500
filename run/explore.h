/* Runs `fencectl explore --predict`, and reads the schedules that it shows. */
#ifndef BIM_RUN_EXPLORE_H
#define BIM_RUN_EXPLORE_H

#include <stdbool.h>
#include <stddef.h>

/* The statuses of fencectl explore: nothing was found, something was, or there are too many states, or a fault. */
enum { EXPLORE_CLEAN, EXPLORE_FOUND, EXPLORE_BOUND };

/* A line of a plan that is named in a schedule. */
struct shown_line {
    size_t line;
    enum { SHOWN_MADE, SHOWN_WAITING, SHOWN_WRONG } is; /* it is made; its client waits there; what is found is of this line */
};

/* A schedule that is shown. */
struct shown {
    struct shown_line *lines;
    size_t count;
    bool is_race; /* two clients access a buffer at its end */
};

/* Explores a plan, with files in a folder. The report of a plan in that folder goes to standard error if it `tells`, else nowhere.
 * Returns the status of fencectl, or STATUS_FAULT. */
int explore(const char *plan, const char *folder, bool tells);
/* Returns how many schedules are shown. */
unsigned long explore_count(const char *folder);
/* Reads a schedule by its number from 1 on. Returns 0 or an errno. */
int explore_read(struct shown *shown, const char *folder, unsigned long number);
void explore_free(struct shown *shown);
/* Removes the files of all schedules. */
void explore_remove(const char *folder);

#endif
