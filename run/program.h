/* The program to run: finds it, and checks that the loader will preload the library for it. */
#ifndef BIM_RUN_PROGRAM_H
#define BIM_RUN_PROGRAM_H

enum { PROGRAM_CANT_RUN = 126, PROGRAM_NOT_FOUND = 127 };

/* Returns 0, or the exit status, once standard error has the reason and a remedy. */
int program_check(const char *program);

#endif
