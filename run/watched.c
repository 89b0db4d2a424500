#define _GNU_SOURCE
#include "watched.h"

#include "lock.h"
#include "shim.h"

#include <linux/dma-buf.h>
#include <stdlib.h>

struct watched {
    struct watched *next;
    int set, file;
    uint64_t data, inode;
    bool is_buffer;
};

static struct watched *all;
static struct lock lock;

/* Takes an entry out of the list. */
static void drop(int set, int file)
{
    for (struct watched **at = &all; *at; at = &(*at)->next)
        if ((*at)->set == set && (*at)->file == file) {
            struct watched *found = *at;

            *at = found->next;
            free(found);
            return;
        }
}

static void add(int set, int file, const struct epoll_event *event)
{
    uint64_t inode;
    enum bim_mark mark = shim_mark(file, &inode);
    struct watched *entry = mark == BIM_FILE_MARK || mark == BIM_BUFFER_MARK ? malloc(sizeof *entry) : NULL;

    if (!entry)
        return;
    *entry = (struct watched){ all, set, file, event->data.u64, inode, mark == BIM_BUFFER_MARK };
    all = entry;
}

void watched_note(int set, int how, int file, const struct epoll_event *event)
{
    struct waiter waiter;

    lock_take(&lock, &waiter);
    drop(set, file);
    if (how != EPOLL_CTL_DEL)
        add(set, file, event);
    lock_give(&lock, &waiter);
}

bool watched_has(int set)
{
    struct waiter waiter;
    const struct watched *at;

    lock_take(&lock, &waiter);
    for (at = all; at && at->set != set; at = at->next) {}
    lock_give(&lock, &waiter);
    return at;
}

/* Returns whether an entry's file is still open by its number. */
static bool is_open(const struct watched *entry)
{
    uint64_t inode;

    return shim_mark(entry->file, &inode) && inode == entry->inode;
}

/* Finds what an event is of. Returns how many entries it may be of. */
static int find(int set, const struct epoll_event *event, struct step_found *found)
{
    int count = 0;

    for (const struct watched *at = all; at; at = at->next) {
        if (at->set != set || at->data != event->data.u64 || !is_open(at))
            continue;
        found->of = at->inode;
        found->value = !at->is_buffer ? 0 : event->events & EPOLLOUT ? DMA_BUF_SYNC_WRITE : DMA_BUF_SYNC_READ;
        count++;
    }
    return count;
}

int watched_find(int set, const struct epoll_event *events, int count, struct step_found *found, int room)
{
    struct waiter waiter;
    int ready = 0;

    lock_take(&lock, &waiter);
    for (int i = 0; i < count && ready >= 0 && ready < room; i++)
        switch (events[i].events & (EPOLLIN | EPOLLOUT) ? find(set, &events[i], &found[ready]) : 0) {
        case 0: break;
        case 1: ready++; break;
        default: ready = -1;
        }
    lock_give(&lock, &waiter);
    return ready;
}
