#define _GNU_SOURCE
#include "ways.h"

#include "calls.h"
#include "log.h"
#include "places.h"

#include <errno.h>
#include <stdio.h>
#include <stdlib.h>
#include <string.h>

/* A line of the file: the calls that led to the call of a turn. */
struct led {
    char *line;
    unsigned long turn;
    int count;
    struct spot spots[LOG_FRAMES];
    struct led *next;
};

int ways_begin(const char *path)
{
    int file = open(path, O_WRONLY | O_CREAT | O_EXCL | O_CLOEXEC, 0600);

    return file < 0 ? errno : call_close(file) ? errno : 0;
}

/* Reads a line, which becomes the result's own. */
static struct led *read_line(char *line)
{
    struct led *led = calloc(1, sizeof *led);
    char *rest = line;

    if (!led)
        return free(line), NULL;
    led->line = line;
    line[strcspn(line, "\n")] = 0;
    led->turn = strtoul(strsep(&rest, "\t"), NULL, 10);
    while (rest && led->count < LOG_FRAMES) {
        const char *object = strsep(&rest, "\t"), *address = strsep(&rest, "\t");

        if (address)
            led->spots[led->count++] = (struct spot){ object, strtoull(address, NULL, 16) };
    }
    return led;
}

/* Reads all lines. */
static struct led *read_all(const char *path)
{
    FILE *file = fopen(path, "re");
    struct led *all = NULL;
    char *line = NULL;
    size_t room = 0;

    while (file && getline(&line, &room, file) > 0) {
        struct led *led = read_line(line);

        line = NULL;
        room = 0;
        if (!led)
            break;
        led->next = all;
        all = led;
    }
    free(line);
    if (file)
        fclose(file);
    return all;
}

static void find_places(struct places *places, const struct led *all)
{
    for (const struct led *led = all; led; led = led->next)
        for (int i = 0; i < led->count; i++)
            places_add(places, led->spots[i].object, led->spots[i].address);
    places_find(places);
}

static void free_all(struct led *all)
{
    while (all) {
        struct led *next = all->next;

        free(all->line);
        free(all);
        all = next;
    }
}

struct way *ways_read(const struct schedule *schedule)
{
    struct way *ways = calloc(schedule->turns + 1, sizeof *ways);
    struct led *all = ways ? read_all(schedule->ways) : NULL;
    struct places places = { NULL, 0, 0 };

    find_places(&places, all);
    for (const struct led *led = all; led; led = led->next)
        if (led->turn < schedule->turns)
            places_write(&places, led->spots, led->count, ways[led->turn].place, sizeof ways[0].place);
    places_free(&places);
    free_all(all);
    return ways;
}

/* Returns whether a place has a line of a source, as `main lucky.c:20`. */
static bool has_line(const char *place)
{
    for (const char *colon = strchr(place, ':'); colon; colon = strchr(colon + 1, ':'))
        if (colon > place && colon[1] >= '0' && colon[1] <= '9')
            return true;
    return false;
}

/* Returns whether a call was made where a note says. The note may have fewer of the calls that led there. */
static bool is_at(const char *made, const char *noted)
{
    size_t length = strlen(noted);

    return !has_line(made) || !has_line(noted) || (strncmp(made, noted, length) == 0 && strchr(",", made[length]));
}

uint32_t ways_other(const struct schedule *schedule, const struct way *ways)
{
    uint32_t turn = 0;

    while (turn < schedule->turns && is_at(ways[turn].place, schedule->all[turn].place))
        turn++;
    return turn;
}
