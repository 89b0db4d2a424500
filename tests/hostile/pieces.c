/* A library to preload: it splits a program's reads and writes into pieces, and makes them fail.
 *
 * PIECES_READ and PIECES_WRITTEN, if set, limit the bytes of a read and of a write. After PIECES_READABLE bytes were
 * read, a read fails. After PIECES_ROOM bytes were written to descriptor PIECES_FILE, a write there fails: if
 * PIECES_HALTS is set it writes 0 bytes, and if PIECES_RECOVERS is set, later writes succeed again. If PIECES_UNSYNCED
 * is set, each fsync fails. The file COUNTS holds a struct counts: of reads, of writes to that descriptor, and of their
 * bytes. SIGALRM ends a program that runs longer than SECONDS.
 */
#define _GNU_SOURCE
#include <errno.h>
#include <fcntl.h>
#include <stdbool.h>
#include <stdlib.h>
#include <sys/mman.h>
#include <sys/syscall.h>
#include <unistd.h>

struct counts {
    unsigned reads, read, writes, written;
};

static struct counts *counts;
static size_t readable, room, most_read, most_written;
static int limited;
static bool halts, recovers, unsynced;

/* Returns the number in a variable, or the greatest number. */
static size_t number_of(const char *name)
{
    const char *text = getenv(name);
    return text ? strtoul(text, NULL, 10) : (size_t)-1;
}

__attribute__((constructor)) static void begin(void)
{
    const char *path = getenv("COUNTS");
    int file = path ? open(path, O_RDWR | O_CLOEXEC) : -1;
    if (file < 0)
        abort();
    counts = mmap(NULL, sizeof(struct counts), PROT_READ | PROT_WRITE, MAP_SHARED, file, 0);
    if (counts == MAP_FAILED)
        abort();
    close(file);
    alarm((unsigned)number_of("SECONDS"));
    readable = number_of("PIECES_READABLE");
    room = number_of("PIECES_ROOM");
    most_read = number_of("PIECES_READ");
    most_written = number_of("PIECES_WRITTEN");
    limited = (int)number_of("PIECES_FILE");
    halts = getenv("PIECES_HALTS") != NULL;
    recovers = getenv("PIECES_RECOVERS") != NULL;
    unsynced = getenv("PIECES_UNSYNCED") != NULL;
}

static size_t least(size_t one, size_t other)
{
    return one < other ? one : other;
}

static ssize_t failing(void)
{
    errno = EIO;
    return -1;
}

ssize_t read(int file, void *bytes, size_t size)
{
    counts->reads++;
    size = least(size, most_read);
    if (size > 0 && counts->read >= readable)
        return failing();
    ssize_t count = syscall(SYS_read, file, bytes, least(size, readable - counts->read));
    if (count > 0)
        counts->read += count;
    return count;
}

ssize_t write(int file, const void *bytes, size_t size)
{
    if (file != limited)
        return syscall(SYS_write, file, bytes, size);
    counts->writes++;
    size = least(size, most_written);
    if (size > 0 && counts->written >= room) {
        if (recovers)
            room = (size_t)-1;
        return halts ? 0 : failing();
    }
    ssize_t count = syscall(SYS_write, file, bytes, least(size, room - counts->written));
    if (count > 0)
        counts->written += count;
    return count;
}

int fsync(int file)
{
    return unsynced ? (int)failing() : (int)syscall(SYS_fsync, file);
}
