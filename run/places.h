/* Where in its source a program's calls are, by addr2line(1). */
#ifndef BIM_RUN_PLACES_H
#define BIM_RUN_PLACES_H

#include <stddef.h>
#include <stdint.h>

enum { PLACE_CALLS = 4, PLACE_TEXT = 64 };

/* A call, and those that it was inlined into. */
struct place {
    const char *object; /* the path of a program or a library */
    uint64_t address;   /* in that file */
    int count;
    struct {
        char function[PLACE_TEXT], line[PLACE_TEXT]; /* "" if it isn't known */
    } calls[PLACE_CALLS];
};

/* An address in a program or a library; `object` is NULL if it isn't known in which. */
struct spot {
    const char *object;
    uint64_t address;
};

struct places {
    struct place *all;
    size_t count, room;
};

/* Adds an address, unless it was added. `object` is kept. Without memory, it is left out. */
void places_add(struct places *places, const char *object, uint64_t address);
/* Finds all that were added, with one addr2line for each object. */
void places_find(struct places *places);
/* Returns a place that was added, or NULL. */
const struct place *places_at(const struct places *places, const char *object, uint64_t address);
/* Writes the first two calls at these addresses, the innermost first, each with its function and its line; or the first address, if
 * no line is known. */
void places_write(const struct places *places, const struct spot *spots, int count, char *text, size_t room);
void places_free(struct places *places);

#endif
