/* A user with too many descriptors in flight, in messages that no process has received, gets no more by messages: the
 * call fails, and the process continues. Run it as an ordinary user with a limit of 64 descriptors. */
#include "kernel.h"

enum { MANY = 80, SOME = 20 };

/* Sends many descriptors that aren't received. Returns the pair of sockets that hold them. */
static void send_many(int pair[2])
{
    HOLDS(socketpair(AF_UNIX, SOCK_DGRAM | SOCK_CLOEXEC, 0, pair) == 0);
    for (int i = 0; i < MANY; i++)
        if (hand_over(pair[0], STDIN_FILENO))
            break;
}

int main(void)
{
    int pair[2];

    give_up_after(20);
    int t = timeline(), f = fence(t, 1);
    HOLDS(f >= 0);
    send_many(pair);
    for (int i = 0; i < SOME; i++) {
        int g = fence(t, 1);
        HOLDS(g >= 0 || errno == ENOMEM);
        if (g >= 0)
            close(g);
    }
    EXPECT(status(f), 0);
    close(pair[0]);
    close(pair[1]);
    pause_for(100);
    int after = fence(t, 1);
    HOLDS(after >= 0);
    EXPECT(inc(t, 1), 0);
    EXPECT(is_signalled(f), 1);
    EXPECT(is_signalled(after), 1);
    return report("flights");
}
