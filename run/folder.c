#define _GNU_SOURCE
#include "folder.h"

#include "calls.h"

#include <dirent.h>
#include <errno.h>
#include <stdbool.h>
#include <stdio.h>
#include <stdlib.h>
#include <string.h>
#include <sys/file.h>

#define NAME "bimphlai-run."

static const char *const FILES[] = { FOLDER_SOCKET,  FOLDER_TRACE,    FOLDER_CHECK, FOLDER_PLAN,
                                     FOLDER_THREADS, FOLDER_SCHEDULE, FOLDER_WAYS,  FOLDER_PREDICTED };

/* By su or sudo, the environment may name another user's folder, and that user could put a service of their own
 * there. */
static bool is_own(const char *path)
{
    struct stat found;

    return path && path[0] == '/' && stat(path, &found) == 0 && S_ISDIR(found.st_mode) && found.st_uid == geteuid() &&
           !(found.st_mode & (S_IWGRP | S_IWOTH));
}

static void remove_entries(int in, const char *name, int folder)
{
    for (size_t i = 0; i < sizeof FILES / sizeof FILES[0]; i++)
        unlinkat(folder, FILES[i], 0);
    unlinkat(in, name, AT_REMOVEDIR);
}

/* Removes one of this user's folders if its run has ended. */
static void remove_if_left(int in, const char *name)
{
    int folder = openat(in, name, O_RDONLY | O_DIRECTORY | O_NOFOLLOW | O_CLOEXEC);
    struct stat found;

    if (folder < 0)
        return;
    if (fstat(folder, &found) == 0 && found.st_uid == geteuid() && flock(folder, LOCK_EX | LOCK_NB) == 0)
        remove_entries(in, name, folder);
    call_close(folder);
}

static void remove_left(const char *in)
{
    DIR *all = opendir(in);
    const struct dirent *entry;

    while (all && (entry = readdir(all)))
        if (strncmp(entry->d_name, NAME, strlen(NAME)) == 0)
            remove_if_left(dirfd(all), entry->d_name);
    if (all)
        closedir(all);
}

/* Locks a folder twice: flock(2) lasts as long as any copy of the descriptor is open, and shows other runs that this one
 * lasts. The kernel drops a lock of fcntl(2), by which processes see that their service is alive, with the last of the
 * processes that share the table of descriptors, before it releases any file of that table. */
static void lock_folder(int folder)
{
    struct flock all = { .l_type = F_RDLCK, .l_whence = SEEK_SET };

    flock(folder, LOCK_EX);
    fcntl(folder, F_SETLK, &all);
}

/* Makes a folder and locks it. Returns 0 or an errno: EAGAIN if another run removed the folder before it was locked. */
static int make(char *path, int *lock)
{
    int error;

    if (!mkdtemp(path))
        return errno;
    *lock = open(path, O_RDONLY | O_DIRECTORY | O_CLOEXEC);
    error = *lock < 0 ? errno : 0;
    if (!error)
        lock_folder(*lock);
    if (access(path, F_OK) && errno == ENOENT)
        error = EAGAIN;
    if (!error)
        return 0;
    if (*lock >= 0)
        call_close(*lock);
    rmdir(path);
    return error;
}

static int make_in(const char *in, char *path, size_t room, int *lock)
{
    int error;

    remove_left(in);
    do {
        if (snprintf(path, room, "%s/" NAME "XXXXXX", in) >= (int)room)
            return ENAMETOOLONG;
        error = make(path, lock);
    } while (error == EAGAIN);
    return error;
}

int folder_make(char *path, size_t room, int *lock)
{
    const char *runtime = getenv("XDG_RUNTIME_DIR");
    int error;

    *lock = -1;
    if (is_own(runtime) && make_in(runtime, path, room, lock) == 0)
        return 0;
    error = make_in("/tmp", path, room, lock);
    if (error)
        path[0] = 0;
    return error;
}

static void remove_in(const char *folder, const char *name)
{
    char path[256];

    snprintf(path, sizeof path, "%s/%s", folder, name);
    unlink(path);
}

void folder_remove(const char *path)
{
    if (!path[0])
        return;
    for (size_t i = 0; i < sizeof FILES / sizeof FILES[0]; i++)
        remove_in(path, FILES[i]);
    rmdir(path);
}
