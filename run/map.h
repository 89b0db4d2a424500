/* A hash map from nonzero numbers to pointers. */
#ifndef BIM_RUN_MAP_H
#define BIM_RUN_MAP_H

#include <stddef.h>
#include <stdint.h>

struct map {
    struct map_entry {
        uint64_t key; /* 0 in a free slot */
        void *value;
    } * entries;
    size_t room, count; /* `room` is a power of two, or 0 */
};

/* Returns NULL if the key is missing. */
void *map_find(const struct map *map, uint64_t key);
/* Adds a key that the map doesn't have. Returns 0, or ENOMEM, and then the map is unchanged. */
int map_add(struct map *map, uint64_t key, void *value);
void map_remove(struct map *map, uint64_t key);
void map_free(struct map *map);

#endif
