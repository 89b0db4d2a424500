/* The memory of a buffer: a list of parts of memory files. A heap's buffer has one file; a buffer of /dev/udmabuf has
 * parts of files that the program holds too. */
#ifndef BIM_RUN_PARTS_H
#define BIM_RUN_PARTS_H

#include <stdbool.h>
#include <stddef.h>
#include <stdint.h>

/* The udmabuf driver's list_limit. */
enum { PARTS_MOST = 1024 };

struct part {
    int memory;
    uint64_t from, size;
};

struct parts {
    struct part *at;
    size_t count;
};

/* Checks whether a buffer may be made of these bytes of a file. Returns 0, EBADFD for a file that isn't a memory file,
 * or EINVAL for one that may shrink or can't be written. */
int parts_check(int memory, uint64_t from, uint64_t size);

/* Adds a part, and takes ownership of its descriptor. Returns 0 or ENOMEM. */
int parts_add(struct parts *parts, int memory, uint64_t from, uint64_t size);
/* Moves all descriptors to the numbers that `place` returns. */
void parts_place(struct parts *parts, int (*place)(int file));
void parts_close(struct parts *parts);
/* Returns whether a descriptor belongs to a part. Its inode doesn't tell. */
bool parts_hold(int file);

#endif
