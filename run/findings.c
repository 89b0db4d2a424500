#define _GNU_SOURCE
#include "findings.h"

#include "say.h"

#include <errno.h>
#include <fcntl.h>
#include <stdio.h>
#include <stdlib.h>
#include <string.h>
#include <sys/wait.h>
#include <unistd.h>

enum { CALLS = 3, PLACE_ROOM = 300 };

/* A line of the file, and how often it comes. */
struct finding {
    char *line;
    size_t count;
};

struct findings {
    struct finding *all;
    size_t count;
};

int findings_begin(const char *path)
{
    int file = open(path, O_WRONLY | O_CREAT | O_EXCL | O_CLOEXEC, 0600);

    if (file < 0)
        return errno;
    close(file);
    return 0;
}

/* Counts a line, which becomes the findings' own. Without memory the line is dropped. */
static void add(struct findings *findings, char *line)
{
    struct finding *more;

    for (size_t i = 0; i < findings->count; i++)
        if (strcmp(findings->all[i].line, line) == 0) {
            findings->all[i].count++;
            free(line);
            return;
        }
    more = realloc(findings->all, (findings->count + 1) * sizeof *more);
    if (!more) {
        free(line);
        return;
    }
    findings->all = more;
    more[findings->count++] = (struct finding){ line, 1 };
}

/* Becomes addr2line (exec), which prints two lines for the function of an address, and for each into which that was inlined. */
static void become_addr2line(const char *object, const char *address, int output)
{
    int nowhere = open("/dev/null", O_RDWR | O_CLOEXEC);

    dup2(output, STDOUT_FILENO);
    dup2(nowhere, STDERR_FILENO);
    unsetenv("LD_PRELOAD");
    execlp("addr2line", "addr2line", "-i", "-f", "-s", "-e", object, address, (char *)NULL);
    _exit(EXIT_FAILURE);
}

/* Starts addr2line. Returns its output, or NULL. */
static FILE *start_addr2line(const char *object, const char *address, pid_t *child)
{
    int ends[2];

    if (pipe2(ends, O_CLOEXEC))
        return NULL;
    *child = fork();
    if (*child == 0)
        become_addr2line(object, address, ends[1]);
    close(ends[1]);
    return fdopen(ends[0], "r");
}

/* The calls that led to a finding, the innermost first. */
struct calls {
    char text[CALLS * PLACE_ROOM];
    int count;
};

static void add_call(struct calls *calls, const char *place, const char *more)
{
    size_t length = strlen(calls->text);

    if (calls->count < CALLS)
        snprintf(calls->text + length, sizeof calls->text - length, "%s%s%s", calls->count ? ", called by " : ", ", place, more);
    calls->count++;
}

/* Adds the calls at a place, with the lines of the source if addr2line knows them, else as it was noted. */
static void add_calls(struct calls *calls, const char *object, const char *address)
{
    char function[PLACE_ROOM / 2], line[PLACE_ROOM / 2];
    const char *name = strrchr(object, '/');
    int before = calls->count;
    pid_t child = -1;
    FILE *from = start_addr2line(object, address, &child);

    while (from && fgets(function, sizeof function, from) && fgets(line, sizeof line, from)) {
        function[strcspn(function, "\n")] = 0;
        snprintf(function + strlen(function), sizeof function - strlen(function), " (%.*s)", (int)strcspn(line, " \n"), line);
        if (!strchr(line, '?'))
            add_call(calls, function, "");
    }
    if (from)
        fclose(from);
    while (child > 0 && waitpid(child, NULL, 0) < 0 && errno == EINTR)
        ;
    if (calls->count == before) {
        snprintf(line, sizeof line, "+%s", address);
        add_call(calls, name ? name + 1 : object, line);
    }
}

static void tell(const struct finding *finding)
{
    char *rest = finding->line, times[32] = "";
    const char *kind = strsep(&rest, "\t"), *thread = strsep(&rest, "\t");
    struct calls calls = { "", 0 };

    while (rest) {
        const char *object = strsep(&rest, "\t"), *address = strsep(&rest, "\t");

        if (address)
            add_calls(&calls, object, address);
    }
    if (finding->count > 1)
        snprintf(times, sizeof times, ", %zu times", finding->count);
    say("an access to %s ended while a fence was pending%s: thread %s%s", kind, times, thread ? thread : "?", calls.text);
}

bool findings_tell(const char *path)
{
    FILE *file = fopen(path, "re");
    struct findings findings = { NULL, 0 };
    char *line = NULL;
    size_t room = 0;
    bool has_any;

    while (file && getline(&line, &room, file) > 0) {
        line[strcspn(line, "\n")] = 0;
        add(&findings, line);
        line = NULL;
        room = 0;
    }
    free(line);
    if (file)
        fclose(file);
    for (size_t i = 0; i < findings.count; i++) {
        tell(&findings.all[i]);
        free(findings.all[i].line);
    }
    has_any = findings.count > 0;
    free(findings.all);
    return has_any;
}
