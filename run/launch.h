/* Starts the program's process: sets its environment, and translates its wait status. */
#ifndef BIM_RUN_LAUNCH_H
#define BIM_RUN_LAUNCH_H

#include <stdbool.h>
#include <sys/types.h>

enum { STATUS_FAULT = 125 };

/* Prints on standard error why something can't be done, and returns STATUS_FAULT. */
int fault(const char *what, int error);
/* Stores the path of the file `name` in the first of `folders` that has it; the folders are relative to this program's
 * own. Returns false if none has it. */
bool find_beside(const char *const folders[], const char *name, char *path);

/* Stores the path of fencectl beside this program, or else its name, by which it is found in PATH. */
void launch_find_fencectl(char *path);

/* Sets the environment by which programs find the service. Returns 0 or STATUS_FAULT. */
int launch_prepare(const char *service, const char *trace);
/* Becomes the program (exec). Returns the exit status to end with if that fails. */
int launch_become(char **program);
/* Translates a wait status into an exit status as a shell does. */
int launch_status(int waited);

#endif
