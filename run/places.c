#define _GNU_SOURCE
#include "places.h"

#include <errno.h>
#include <fcntl.h>
#include <stdbool.h>
#include <stdio.h>
#include <stdlib.h>
#include <string.h>
#include <sys/wait.h>
#include <unistd.h>

enum { WORDS = 8, ADDRESS = 20, SHOWN = 2 };

const struct place *places_at(const struct places *places, const char *object, uint64_t address)
{
    for (size_t i = 0; i < places->count; i++)
        if (places->all[i].address == address && strcmp(places->all[i].object, object) == 0)
            return &places->all[i];
    return NULL;
}

void places_add(struct places *places, const char *object, uint64_t address)
{
    if (places_at(places, object, address))
        return;
    if (places->count == places->room) {
        size_t room = places->room ? 2 * places->room : 64;
        struct place *all = realloc(places->all, room * sizeof *all);

        if (!all)
            return;
        places->all = all;
        places->room = room;
    }
    places->all[places->count++] = (struct place){ .object = object, .address = address };
}

/* Makes the words of addr2line for the addresses of an object, the last of them NULL. */
static char **words_for(const struct places *places, const char *object)
{
    static const char *const FIRST[] = { "addr2line", "-a", "-i", "-f", "-s", "-C", "-e" };
    char **words = calloc(WORDS + places->count + 1, sizeof *words);
    char(*addresses)[ADDRESS] = calloc(places->count, sizeof *addresses);
    int count = WORDS;

    if (!words || !addresses) {
        free(words);
        free(addresses);
        return NULL;
    }
    memcpy(words, FIRST, sizeof FIRST);
    words[WORDS - 1] = (char *)object;
    for (size_t i = 0; i < places->count; i++) {
        if (strcmp(places->all[i].object, object) != 0)
            continue;
        snprintf(addresses[i], ADDRESS, "%#llx", (unsigned long long)places->all[i].address);
        words[count++] = addresses[i];
    }
    words[count] = NULL;
    return words;
}

/* Becomes addr2line (exec). */
static void become(const struct places *places, const char *object, int output)
{
    int nowhere = open("/dev/null", O_RDWR | O_CLOEXEC);
    char **words = words_for(places, object);

    dup2(output, STDOUT_FILENO);
    dup2(nowhere, STDERR_FILENO);
    dup2(nowhere, STDIN_FILENO);
    unsetenv("LD_PRELOAD");
    if (words)
        execvp(words[0], words);
    _exit(EXIT_FAILURE);
}

static void take_line(char *to, const char *text)
{
    if (!strchr(text, '?'))
        snprintf(to, PLACE_TEXT, "%.*s", (int)strcspn(text, " \n"), text);
}

/* Reads addr2line's answers: for each address a line with it, then two lines for each call. */
static void read_answers(struct places *places, const char *object, FILE *from)
{
    char line[1024];
    struct place *place = NULL;
    bool is_function = true;

    while (fgets(line, sizeof line, from)) {
        if (strncmp(line, "0x", 2) == 0) {
            place = (struct place *)places_at(places, object, strtoull(line, NULL, 16));
            is_function = true;
            continue;
        }
        if (!place || place->count == PLACE_CALLS)
            continue;
        take_line(is_function ? place->calls[place->count].function : place->calls[place->count].line, line);
        place->count += !is_function;
        is_function = !is_function;
    }
}

static void find_in(struct places *places, const char *object)
{
    int ends[2];
    pid_t child;
    FILE *from;

    if (pipe2(ends, O_CLOEXEC))
        return;
    child = fork();
    if (child == 0)
        become(places, object, ends[1]);
    close(ends[1]);
    from = fdopen(ends[0], "r");
    if (from) {
        read_answers(places, object, from);
        fclose(from);
    }
    while (child > 0 && waitpid(child, NULL, 0) < 0 && errno == EINTR) {}
}

static bool was_found(const struct places *places, size_t at)
{
    for (size_t i = 0; i < at; i++)
        if (strcmp(places->all[i].object, places->all[at].object) == 0)
            return true;
    return false;
}

void places_find(struct places *places)
{
    for (size_t i = 0; i < places->count; i++)
        if (!was_found(places, i))
            find_in(places, places->all[i].object);
}

/* A place that is worth reading: a line of a source that is no header. */
static bool is_good(const struct place *place, int call)
{
    const char *line = place->calls[call].line, *end = strchr(line, ':');

    return line[0] && !(end && end - line >= 2 && strncmp(end - 2, ".h", 2) == 0);
}

/* The C library's calls are of no interest. */
static bool is_of_program(const struct spot *spot)
{
    const char *name = spot->object ? strrchr(spot->object, '/') : NULL;

    return name && strncmp(name, "/libc.", 6) != 0 && strncmp(name, "/libc-", 6) != 0;
}

static void add_call(char *text, size_t room, const char *function, const char *line)
{
    size_t length = strlen(text);

    snprintf(text + length, room - length, "%s%s%s%s", length ? ", " : "", function, *function ? " " : "", line);
}

static void write_address(const struct spot *spot, char *text, size_t room)
{
    const char *name = spot->object ? strrchr(spot->object, '/') : NULL;

    snprintf(text, room, "%.60s+%#llx", name ? name + 1 : "?", (unsigned long long)spot->address);
}

void places_write(const struct places *places, const struct spot *spots, int count, char *text, size_t room)
{
    int shown = 0;

    text[0] = 0;
    for (int i = 0; i < count; i++) {
        const struct place *place = is_of_program(&spots[i]) ? places_at(places, spots[i].object, spots[i].address) : NULL;

        for (int call = 0; place && call < place->count && shown < SHOWN; call++)
            if (is_good(place, call)) {
                add_call(text, room, place->calls[call].function, place->calls[call].line);
                shown++;
            }
    }
    if (!shown && count > 0)
        write_address(&spots[0], text, room);
}

void places_free(struct places *places)
{
    free(places->all);
    *places = (struct places){ NULL, 0, 0 };
}
