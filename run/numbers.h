/* The numbers of the library's own descriptors in a program. The program gets the numbers that it would get without the
 * library, 0, 1 and 2 above all, and the process's table stays as small as it would be: the kernel copies the table at
 * each fork, and select(2) reads as many bits of a set as the table has. Other threads may open descriptors, or set the
 * limit, at the same time. */
#ifndef BIM_RUN_NUMBERS_H
#define BIM_RUN_NUMBERS_H

#include <stdbool.h>
#include <sys/resource.h>

/* Where own descriptors are: at the lowest free numbers from `from` on. */
struct numbers {
    rlim_t from;
    bool raises; /* these numbers lie above the soft limit */
};

/* Returns where the few descriptors of a process with a service are. */
struct numbers numbers_of_link(const struct rlimit *limit);
/* Returns where the many descriptors of --local are. Once these numbers are used up, the registry is crowded, and its
 * descriptors are above the soft limit. */
struct numbers numbers_of_registry(const struct rlimit *limit, bool is_crowded);

/* Raises the soft limit to the hard limit. Stores the old limit, and returns whether that makes more numbers
 * available. */
bool numbers_borrow(struct rlimit *was);
/* Restores the limit, unless another thread has changed it since. */
void numbers_return(const struct rlimit *was);

/* Opens a file for reading, if no other number is free by one above the soft limit. Returns -1 with errno on failure. */
int numbers_open(const char *path);

/* Moves a descriptor there; or, if no such number is free, out of the way of 0, 1 and 2. Returns the new number, or -1
 * with errno if there is none, and then `file` stays. `how` is F_DUPFD or F_DUPFD_CLOEXEC. */
int numbers_move(int file, struct numbers to, int how);

/* Returns how many bits of a set the kernel's select(2) would read of `count` bits if the process had no descriptors
 * that `is_own` returns true for. These are below `above`. */
int numbers_selected(int count, bool (*is_own)(int file), int above);

#endif
