/* A service without numbers refuses new objects, and serves the processes that use it and new ones: their calls work or
 * fail, and none ends. Run it with a small limit, both soft and hard. */
#include "client.h"
#include <sys/wait.h>

enum { MANY = 4096, CHILDREN = 40, WELL = 7, REFUSED = 8 };

static int made[MANY], count;

static int is_refusal(int error)
{
    return error == ENOMEM || error == ENFILE || error == EMFILE;
}

/* Makes files until that is refused, by one process after another: each has numbers left. */
static void fill(int t)
{
    int f;

    while (count < MANY && (f = fence(t, 100)) >= 0)
        made[count++] = f;
    HOLDS(is_refusal(errno));
}

static void in_another(int t)
{
    pid_t child = fork();

    if (child == 0) {
        for (int i = 0; i < count; i++)
            syscall(SYS_close, made[i]);
        while (fence(t, 100) >= 0) {
        }
        FAILS(fence(t, 100), ENOMEM);
        FAILS(timeline(), ENFILE);
        FAILS(buffer(1), ENOMEM);
        pause_for(2000);
        fflush(stdout);
        _exit(failures ? 1 : WELL);
    }
    pause_for(500);
}

/* Returns whether the first calls of a new process work; it also closes, which is not answered. */
static int asks(int t, int f)
{
    syscall(SYS_close, made[0]);
    syscall(SYS_close, made[1]);
    if (inc(t, 0) || status(f) != 0)
        return is_refusal(errno) ? REFUSED : 1;
    return close(t) ? 1 : WELL;
}

int main(void)
{
    int t = timeline(), f = fence(t, 1), well = 0;
    pid_t children[CHILDREN];

    give_up_after(40);
    fill(t);
    fflush(stdout);
    in_another(t);
    EXPECT(inc(t, 0), 0);
    for (int i = 0; i < CHILDREN; i++) {
        children[i] = fork();
        if (children[i] == 0) {
            int end = asks(t, f);
            pause_for(300);
            _exit(end);
        }
    }
    for (int i = 0; i < CHILDREN; i++) {
        int end = end_of(children[i]);
        HOLDS(end == WELL || end == REFUSED);
        well += end == WELL;
    }
    HOLDS(well >= CHILDREN / 2);
    EXPECT(end_of(-1), WELL);
    EXPECT(inc(t, 1), 0);
    EXPECT(is_signalled(f), 1);
    for (int i = 0; i < count; i++)
        close(made[i]);
    close(f);
    close(t);
    return report("overfull");
}
