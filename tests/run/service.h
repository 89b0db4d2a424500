/* Shared by programs that examine the tool itself: its processes, and the descriptors that these hold. The tool is the
 * parent of the program that it runs. */
#ifndef SERVICE_H
#define SERVICE_H

#include "kernel.h"
#include <ctype.h>
#include <dirent.h>
#include <signal.h>

enum { MOST = 16 };

/* Returns the parent of a process, or -1. */
static inline pid_t parent_of(pid_t process)
{
    char path[64], line[512], *after;
    FILE *stream;
    int parent = -1;

    snprintf(path, sizeof path, "/proc/%d/stat", (int)process);
    if (!(stream = fopen(path, "r")))
        return -1;
    if (fgets(line, sizeof line, stream) && (after = strrchr(line, ')')) && sscanf(after + 1, " %*c %d", &parent) != 1)
        parent = -1;
    fclose(stream);
    return parent;
}

/* Stores the processes of the tool: itself first, and then its children except `program`. */
static inline int service(pid_t tool, pid_t program, pid_t found[MOST])
{
    DIR *folder = opendir("/proc");
    struct dirent *entry;
    int count = 1;

    found[0] = tool;
    while (folder && (entry = readdir(folder)) && count < MOST) {
        pid_t process = isdigit((unsigned char)entry->d_name[0]) ? atoi(entry->d_name) : 0;
        if (process && process != program && parent_of(process) == tool)
            found[count++] = process;
    }
    if (folder)
        closedir(folder);
    return count;
}

/* Returns whether a process has a name. */
static inline int is_named(pid_t process, const char *name)
{
    char path[64], found[32] = "";
    FILE *stream;

    snprintf(path, sizeof path, "/proc/%d/comm", (int)process);
    if (!(stream = fopen(path, "r")))
        return 0;
    if (fgets(found, sizeof found, stream))
        found[strcspn(found, "\n")] = 0;
    fclose(stream);
    return strcmp(found, name) == 0;
}

/* Returns how many descriptors these processes have. */
static inline int held(const pid_t *processes, int count)
{
    int all = 0;

    for (int i = 0; i < count; i++) {
        char path[64];
        DIR *folder;
        snprintf(path, sizeof path, "/proc/%d/fd", (int)processes[i]);
        if (!(folder = opendir(path)))
            return -1;
        while (readdir(folder))
            all++;
        closedir(folder);
    }
    return all;
}

/* Expects that soon these processes have no more descriptors than before. */
static inline void expect_held(const pid_t *processes, int count, int before)
{
    for (int left = SOON; held(processes, count) > before && left > 0; left--)
        pause_for(1);
    int after = held(processes, count);
    if (after > before)
        printf("the service has %d descriptors, and had %d\n", after, before);
    HOLDS(after <= before);
}

#endif
