#include "map.h"

#include <errno.h>
#include <stdlib.h>

enum { FIRST_ROOM = 64 };

/* The slot of a key if no other key has taken it. */
static size_t home(const struct map *map, uint64_t key)
{
    return (key * 0x9e3779b97f4a7c15u >> 32) & (map->room - 1);
}

/* Returns the slot of a key, or the free slot where it would be inserted. */
static size_t place(const struct map *map, uint64_t key)
{
    size_t at = home(map, key);

    while (map->entries[at].key != 0 && map->entries[at].key != key)
        at = (at + 1) & (map->room - 1);
    return at;
}

void *map_find(const struct map *map, uint64_t key)
{
    return map->room == 0 || key == 0 ? NULL : map->entries[place(map, key)].value;
}

static int grow(struct map *map)
{
    struct map larger = { NULL, map->room ? 2 * map->room : FIRST_ROOM, map->count };

    larger.entries = calloc(larger.room, sizeof larger.entries[0]);
    if (!larger.entries)
        return ENOMEM;
    for (size_t i = 0; i < map->room; i++)
        if (map->entries[i].key != 0)
            larger.entries[place(&larger, map->entries[i].key)] = map->entries[i];
    free(map->entries);
    *map = larger;
    return 0;
}

int map_add(struct map *map, uint64_t key, void *value)
{
    if (2 * (map->count + 1) > map->room && grow(map) != 0)
        return ENOMEM;
    map->entries[place(map, key)] = (struct map_entry){ key, value };
    map->count++;
    return 0;
}

/* Moves later entries back over the freed slot, so that a search that stops at a free slot misses no key. */
void map_remove(struct map *map, uint64_t key)
{
    size_t mask = map->room - 1, free_at, at;

    if (!map_find(map, key))
        return;
    free_at = at = place(map, key);
    for (;;) {
        at = (at + 1) & mask;
        if (map->entries[at].key == 0)
            break;
        if (((at - home(map, map->entries[at].key)) & mask) < ((at - free_at) & mask))
            continue;
        map->entries[free_at] = map->entries[at];
        free_at = at;
    }
    map->entries[free_at] = (struct map_entry){ 0, NULL };
    map->count--;
}

void map_free(struct map *map)
{
    free(map->entries);
    *map = (struct map){ NULL, 0, 0 };
}
