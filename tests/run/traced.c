/* usage: traced NAME
 *
 * Three processes with known fences: the first, called NAME, makes points 1 to 3 of a timeline and reaches 2; the second
 * waits for point 1 and sees it; the third waits for point 3, and is killed. The first ends while point 3 is pending. */
#include "kernel.h"
#include <signal.h>

static void see(int f, int told)
{
    prctl(PR_SET_NAME, "second");
    if (write(told, "", 1) != 1 || ready(f, POLLIN, SOON) != POLLIN)
        _exit(1);
    _exit(0);
}

static void hang(int f, int told)
{
    prctl(PR_SET_NAME, "third");
    if (write(told, "", 1) != 1)
        _exit(1);
    ready(f, POLLIN, -1);
    _exit(0);
}

static pid_t begin(void (*run)(int, int), int f, const int told[2])
{
    pid_t child = fork();
    char byte;

    if (child == 0) {
        give_up_after(20);
        run(f, told[1]);
    }
    EXPECT(read(told[0], &byte, 1), 1);
    return child;
}

int main(int argc, char **argv)
{
    int told[2];

    give_up_after(20);
    prctl(PR_SET_NAME, argc > 1 ? argv[1] : "first");
    EXPECT(pipe(told), 0);
    int low = timeline(), t = fcntl(low, F_DUPFD_CLOEXEC, 100);
    close(low);
    /* The kernel closes descriptors in rising order, so files are closed before their timeline when the process
     * ends. */
    int one = fence(t, 1), two = fence(t, 2), three = fence(t, 3);
    pid_t second = begin(see, one, told), third = begin(hang, three, told);
    pause_for(50);
    EXPECT(inc(t, 1), 0);
    EXPECT(end_of(second), 0);
    EXPECT(inc(t, 1), 0);
    EXPECT(is_signalled(two), 1);
    close(one);
    close(two);
    kill(third, SIGKILL);
    EXPECT(end_of(third), 128 + SIGKILL);
    return report("traced");
}
