/* What --check found: accesses that ended while a fence was pending. */
#ifndef BIM_RUN_FINDINGS_H
#define BIM_RUN_FINDINGS_H

#include <stdbool.h>

/* Makes the empty file in which the preloaded library notes them (check.h). Returns 0 or an errno. */
int findings_begin(const char *path);
/* Says each finding once, with the lines of the source if addr2line(1) knows them. Returns whether there are any. */
bool findings_tell(const char *path);

#endif
