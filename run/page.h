/* A page that a service shares read-only with its processes. It says whether there ever was a buffer and whether the
 * server is awake, and caches the information of signalled files, which never changes again, so that a process can
 * report them without a request. */
#ifndef BIM_RUN_PAGE_H
#define BIM_RUN_PAGE_H

#include "wire.h"

#include <stdatomic.h>
#include <stdbool.h>
#include <stdint.h>

enum { PAGE_SLOTS = 4096 };

/* A signalled file with one fence. A later file overwrites an earlier one. Numbers of files are never reused. */
struct page_slot {
    _Atomic uint32_t turn; /* a sequence lock: odd during a write */
    int32_t status;
    uint64_t inode;
    char name[BIM_TEXT_ROOM];
    struct sync_fence_info row;
};

struct bim_page {
    _Atomic uint32_t buffers; /* nonzero once a buffer was made */
    _Atomic uint32_t awake;   /* 1 plus the processor on which the server looks for requests, or 0 */
    struct page_slot slots[PAGE_SLOTS];
};

/* Makes a page in memory that other processes can't change. Returns NULL with errno on failure. */
struct bim_page *page_new(int *memory);
/* Maps a service's page for reading. Returns NULL with errno on failure. */
const struct bim_page *page_open(int memory);
void page_close(struct bim_page *page);

void page_put(struct bim_page *page, uint64_t inode, const struct bim_answer *answer);
/* Copies a file's cached information to `answer`. Returns false if the page doesn't have the file. */
bool page_get(const struct bim_page *page, uint64_t inode, struct bim_answer *answer);

#endif
