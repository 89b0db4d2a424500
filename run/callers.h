/* The program's calls that led into the preloaded library, as lines of a file, which the tool reads at the end. */
#ifndef BIM_RUN_CALLERS_H
#define BIM_RUN_CALLERS_H

/* Prepares the library: call it when the process begins. */
void callers_begin(void);
/* Appends a line to a file: what it begins with, and for each of the last calls of this thread in the program, the innermost first,
 * its object and its address there, as addr2line(1) takes them, each behind a tab. Keeps errno. */
void callers_note(const char *path, const char *begin);

#endif
