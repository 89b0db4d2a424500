/* A program that closes the library's descriptors by a system call, and gets their numbers for files of its own, keeps
 * the bytes of these files; and its calls work once a number is free. Run it with a small limit, both soft and hard. */
#include "kernel.h"
#include <sys/syscall.h>

enum { MANY = 4096 };

static int files[MANY], count;

static void open_all(const char *name)
{
    int file;

    while (count < MANY && (file = open(name, O_RDWR)) >= 0)
        files[count++] = file;
    EXPECT(errno, EMFILE);
}

static void expect_empty(void)
{
    struct stat found;

    for (int i = 0; i < count; i++) {
        EXPECT(fstat(files[i], &found), 0);
        EXPECT(found.st_size, 0);
    }
}

int main(void)
{
    char name[] = "/tmp/reused.XXXXXX";
    int t = timeline(), f = fence(t, 1);

    give_up_after(20);
    EXPECT(inc(t, 0), 0);
    EXPECT(syscall(SYS_close_range, f + 1, ~0u, 0), 0);
    files[count++] = mkstemp(name);
    open_all(name);
    FAILS(inc(t, 0), EMFILE);
    expect_empty();
    close(files[--count]);
    EXPECT(inc(t, 1), 0);
    EXPECT(is_signalled(f), 1);
    EXPECT(status(f), 1);
    expect_empty();
    while (count > 0)
        close(files[--count]);
    EXPECT(inc(t, 1), 0);
    close(f);
    close(t);
    unlink(name);
    return report("reused");
}
