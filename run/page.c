#define _GNU_SOURCE
#include "page.h"

#include "calls.h"

#include <errno.h>
#include <string.h>
#include <sys/mman.h>

/* Headers older than Linux 5.1 lack this seal. */
#ifndef F_SEAL_FUTURE_WRITE
#define F_SEAL_FUTURE_WRITE 0x0010
#endif

struct bim_page *page_new(int *memory)
{
    struct bim_page *page;

    *memory = memfd_create("bimphlai-run", MFD_CLOEXEC | MFD_ALLOW_SEALING);
    if (*memory < 0)
        return NULL;
    page = MAP_FAILED;
    if (ftruncate(*memory, sizeof *page) == 0 && fcntl(*memory, F_ADD_SEALS, F_SEAL_SHRINK | F_SEAL_GROW) == 0)
        page = mmap(NULL, sizeof *page, PROT_READ | PROT_WRITE, MAP_SHARED, *memory, 0);
    /* Kernels before Linux 5.1 can't forbid later writable mappings. */
    if (page != MAP_FAILED && (fcntl(*memory, F_ADD_SEALS, F_SEAL_FUTURE_WRITE | F_SEAL_SEAL) == 0 || errno == EINVAL))
        return page;
    if (page != MAP_FAILED)
        munmap(page, sizeof *page);
    call_close(*memory);
    *memory = -1;
    return NULL;
}

const struct bim_page *page_open(int memory)
{
    void *page = mmap(NULL, sizeof(struct bim_page), PROT_READ, MAP_SHARED, memory, 0);

    return page == MAP_FAILED ? NULL : page;
}

void page_close(struct bim_page *page)
{
    munmap(page, sizeof *page);
}

static size_t slot_of(uint64_t inode)
{
    return inode % PAGE_SLOTS;
}

void page_put(struct bim_page *page, uint64_t inode, const struct bim_answer *answer)
{
    struct page_slot *slot = &page->slots[slot_of(inode)];

    atomic_fetch_add_explicit(&slot->turn, 1, memory_order_acq_rel);
    atomic_thread_fence(memory_order_release);
    slot->inode = inode;
    slot->status = answer->status;
    memcpy(slot->name, answer->name, sizeof slot->name);
    slot->row = answer->row[0];
    atomic_fetch_add_explicit(&slot->turn, 1, memory_order_release);
}

bool page_get(const struct bim_page *page, uint64_t inode, struct bim_answer *answer)
{
    const struct page_slot *slot = &page->slots[slot_of(inode)];
    uint32_t turn = atomic_load_explicit(&slot->turn, memory_order_acquire);
    bool found = slot->inode == inode;

    if (turn % 2 != 0 || !found)
        return false;
    answer->status = slot->status;
    answer->rows = answer->fences = 1;
    memcpy(answer->name, slot->name, sizeof slot->name);
    answer->row[0] = slot->row;
    atomic_thread_fence(memory_order_acquire);
    return atomic_load_explicit(&slot->turn, memory_order_relaxed) == turn;
}
