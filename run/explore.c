#define _GNU_SOURCE
#include "explore.h"

#include "launch.h"

#include <errno.h>
#include <fcntl.h>
#include <limits.h>
#include <stdio.h>
#include <stdlib.h>
#include <string.h>
#include <sys/wait.h>
#include <unistd.h>

/* How plans of runs are explored: a schedule ends at its first wrong answer, since the program would go another way, and one that is
 * shown is near to the recorded run. */
static const char MODE[] = "--predict";

/* Becomes fencectl (exec). A report that is read names a plan of the folder without the folder. */
static void become_fencectl(const char *plan, const char *folder, const char *prefix, bool tells)
{
    char fencectl[PATH_MAX];
    int nowhere = open("/dev/null", O_RDWR | O_CLOEXEC);

    dup2(nowhere, STDIN_FILENO);
    dup2(tells ? STDERR_FILENO : nowhere, STDOUT_FILENO);
    launch_find_fencectl(fencectl);
    if (tells && chdir(folder) == 0)
        plan = strrchr(plan, '/') + 1;
    execlp(fencectl, "fencectl", "explore", MODE, "--witness", prefix, plan, (char *)NULL);
    fault("fencectl", errno);
    _exit(STATUS_FAULT);
}

int explore(const char *plan, const char *folder, bool tells)
{
    char prefix[PATH_MAX];
    pid_t child;
    int waited;

    snprintf(prefix, sizeof prefix, "%.4000s/shown", folder);
    child = fork();
    if (child == 0)
        become_fencectl(plan, folder, prefix, tells);
    while (child > 0 && waitpid(child, &waited, 0) < 0)
        if (errno != EINTR)
            return STATUS_FAULT;
    return child < 0 ? fault("fork", errno) : launch_status(waited);
}

/* Stores the path of the file of a schedule. */
static void find_shown(char *path, const char *folder, unsigned long number)
{
    snprintf(path, PATH_MAX, "%.4000s/shown-%lu.fence", folder, number);
}

unsigned long explore_count(const char *folder)
{
    char path[PATH_MAX];
    unsigned long count = 0;

    do {
        find_shown(path, folder, ++count);
    } while (access(path, R_OK) == 0);
    return count - 1;
}

/* Adds a line, of an array that grows at each power of 2. Returns 0 or an errno. */
static int add(struct shown *shown, struct shown_line line)
{
    size_t count = shown->count;
    struct shown_line *more = shown->lines;

    if ((count & (count - 1)) == 0)
        more = realloc(more, (count ? 2 * count : 1) * sizeof *more);
    if (!more)
        return ENOMEM;
    shown->lines = more;
    more[shown->count++] = line;
    return 0;
}

/* Reads a note: `# CLIENT, line N` is above each line that is made, and `# CLIENT, line N, waits` above one at which its client waits.
 * Another note that names a line says what is found. */
static int read_note(struct shown *shown, const char *note)
{
    const char *number = strstr(note, "line ");
    char *end = NULL;
    struct shown_line line = { number ? strtoul(number + strlen("line "), &end, 10) : 0, SHOWN_WRONG };

    shown->is_race |= strstr(note, "two clients race") != NULL;
    if (line.line == 0)
        return 0;
    if (number - note >= 2 && strncmp(number - 2, ", ", 2) == 0)
        line.is = strncmp(end, ", waits", strlen(", waits")) == 0 ? SHOWN_WAITING : SHOWN_MADE;
    return add(shown, line);
}

int explore_read(struct shown *shown, const char *folder, unsigned long number)
{
    char path[PATH_MAX], *line = NULL;
    size_t room = 0;
    int error = 0;
    FILE *file;

    *shown = (struct shown){ NULL, 0, false };
    find_shown(path, folder, number);
    file = fopen(path, "re");
    if (!file)
        return errno;
    while (!error && getline(&line, &room, file) >= 0)
        if (strncmp(line, "# ", 2) == 0)
            error = read_note(shown, line);
    free(line);
    fclose(file);
    return error;
}

void explore_free(struct shown *shown)
{
    free(shown->lines);
}

void explore_remove(const char *folder)
{
    char path[PATH_MAX];
    unsigned long number = 0;

    do {
        find_shown(path, folder, ++number);
    } while (unlink(path) == 0);
}
