/* A folder of a run, which contains the socket of its service, a temporary trace, what --check finds, what --plan records, or what
 * --follow needs. The folder is locked while the run lasts, so that a later run can recognise and remove the folder of a run that
 * was killed. */
#ifndef BIM_RUN_FOLDER_H
#define BIM_RUN_FOLDER_H

#include <stddef.h>

#define FOLDER_SOCKET    "socket"
#define FOLDER_TRACE     "trace"
#define FOLDER_CHECK     "check"
#define FOLDER_PLAN      "plan"
#define FOLDER_THREADS   "threads"
#define FOLDER_SCHEDULE  "schedule"
#define FOLDER_WAYS      "ways"
#define FOLDER_PREDICTED "predicted"

/* Makes a folder that only this user may enter. Stores its path, and a descriptor that holds the lock. Removes all
 * unlocked folders beside it. Returns 0 or an errno. */
int folder_make(char *path, size_t room, int *lock);
/* Removes the folder and the files in it, unless `path` is empty. */
void folder_remove(const char *path);

#endif
