/* Messages of bimphlai-run on standard error. */
#ifndef BIM_RUN_SAY_H
#define BIM_RUN_SAY_H

/* Prints a line, as printf does. The line is dropped if standard error takes none for some time, so that it can't block
 * bimphlai-run. */
void say(const char *format, ...) __attribute__((format(printf, 1, 2)));

#endif
