/* --follow in the tool: gives a program its schedule, and says whether what the plan predicts happened. */
#ifndef BIM_RUN_VERDICT_H
#define BIM_RUN_VERDICT_H

#include "options.h"

#include <stdbool.h>

enum { VERDICT_HARMLESS = 0, VERDICT_HAPPENS = 1, VERDICT_NOT_REACHED = 3 };

/* Reads the schedule, and makes the files that the program's threads share. Returns 0 or the exit status. */
int verdict_begin(const struct options *options);
/* Returns whether all calls of the schedule were made, and the program hangs since: for longer than the patience a thread has
 * waited for a file or a buffer, and no call was made. */
bool verdict_hangs(void);
/* Notes that the program was killed, as it hung. */
void verdict_note_hang(void);
/* Says the verdict. `status` is the program's, and `has_findings` whether --check found anything. Returns the exit status. */
int verdict_tell(int status, bool has_findings);

#endif
