/* A descriptor that is kept from call to call. By a system call, the program may close it and get its number for a file
 * of its own, which must neither be written to nor closed. */
#ifndef BIM_RUN_KEPT_H
#define BIM_RUN_KEPT_H

#include <stdbool.h>
#include <sys/types.h>

struct kept {
    _Atomic int number; /* -1 if there is none */
    dev_t device;
    ino_t inode;
};

#define KEPT_NONE { .number = -1 }

void kept_set(struct kept *kept, int file);
/* Returns whether the number still means the same file. All eventfds count as the same. */
bool kept_is_there(const struct kept *kept);
/* Closes the descriptor if it is there. */
void kept_close(struct kept *kept);

#endif
