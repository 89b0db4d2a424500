/* The frames of this library's callers: the addresses behind the program's calls that led here. */
#ifndef BIM_RUN_FRAMES_H
#define BIM_RUN_FRAMES_H

#include "log.h"

#include <stdbool.h>
#include <stdint.h>

/* Loads the unwinder, which no later call may wait for. Without one, no frame is found. */
void frames_begin(void);
/* Finds the frames, the innermost first; 0 for those that there aren't. Returns whether they were found before. */
bool frames_find(uint64_t frames[LOG_FRAMES]);

#endif
