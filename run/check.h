/* Accesses that end while a fence is pending (--check). The preloaded library notes each in a file, which the tool reads at the
 * end (findings.h). */
#ifndef BIM_RUN_CHECK_H
#define BIM_RUN_CHECK_H

#include <stdbool.h>

/* Reads from the environment whether accesses are checked. */
void check_begin(void);
bool check_is_on(void);
/* Notes that an access of this thread ends while a fence is pending for which it has to wait. Keeps errno. */
void check_note(bool writes);

#endif
