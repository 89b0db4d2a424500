#define _GNU_SOURCE
#include "kept.h"

#include "calls.h"

void kept_set(struct kept *kept, int file)
{
    struct stat found = { .st_ino = 0 };

    call_fstat(file, &found);
    kept->device = found.st_dev;
    kept->inode = found.st_ino;
    kept->number = file;
}

bool kept_is_there(const struct kept *kept)
{
    struct stat found;

    return kept->number >= 0 && call_fstat(kept->number, &found) == 0 && found.st_dev == kept->device &&
           found.st_ino == kept->inode;
}

void kept_close(struct kept *kept)
{
    if (kept_is_there(kept))
        call_close(kept->number);
    kept->number = -1;
}
