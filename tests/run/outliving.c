/* usage: outliving FILE
 *
 * A process that outlives the program: it continues to use its objects, and at the end writes the result into the file. */
#include "kernel.h"

int main(int argc, char **argv)
{
    int t = timeline(), f = fence(t, 1), told[2];
    char byte;

    if (argc != 2 || pipe(told))
        return 2;
    if (fork())
        return 0;
    setsid();
    give_up_after(20);
    close(told[1]);
    /* Waits for the end of its parent. */
    EXPECT(read(told[0], &byte, 1), 0);
    pause_for(200);
    int own = timeline(), more = fence(own, 1), both = merge("both", f, more);
    EXPECT(is_signalled(both), 0);
    EXPECT(inc(t, 1), 0);
    EXPECT(inc(own, 1), 0);
    EXPECT(ready(both, POLLIN, SOON), POLLIN);
    EXPECT(status(both), 1);
    if (!freopen(argv[1], "w", stdout))
        return 1;
    return report("outliving");
}
