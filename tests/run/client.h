/* Shared by programs that speak to the service themselves, without the preloaded library. */
#ifndef CLIENT_H
#define CLIENT_H

#include "../../run/wire.h"
#include "kernel.h"
#include <sys/syscall.h>
#include <sys/un.h>

/* Returns a connection to the service, or -1. */
static inline int connected(void)
{
    struct sockaddr_un to = { .sun_family = AF_UNIX };
    const char *path = getenv(BIM_SERVICE);
    int client = socket(AF_UNIX, SOCK_SEQPACKET | SOCK_CLOEXEC, 0);

    if (!path || strlen(path) >= sizeof to.sun_path)
        return -1;
    strcpy(to.sun_path, path);
    if (connect(client, (struct sockaddr *)&to, sizeof to) == 0)
        return client;
    close(client);
    return -1;
}

/* Returns the number by which the service knows a descriptor. */
static inline __u64 number_of(int fd)
{
    struct stat status;

    return syscall(SYS_fstat, fd, &status) ? 0 : (__u64)status.st_atim.tv_sec;
}

#endif
