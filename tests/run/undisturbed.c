/* usage: undisturbed signals | tool TEXT
 *
 * A program whose first call comes late. Before it, the service gets signals, or the tool is killed; the service still serves the
 * program. With "tool" the result is written to the file TEXT. */
#include "service.h"

enum { LATE = 500 };

static const int SIGNALS[] = { SIGHUP, SIGINT, SIGQUIT, SIGUSR1, SIGUSR2, SIGPIPE, SIGALRM, SIGTERM, SIGCHLD, SIGURG,
                               SIGXCPU, SIGXFSZ, SIGVTALRM, SIGPROF, SIGIO, SIGPWR };

/* Sends signals that end a process unless it blocks them to the tool's processes, except the tool itself, which
 * forwards them. */
static void send_signals(void)
{
    pid_t found[MOST];
    int count = service(getppid(), getpid(), found);

    HOLDS(count > 1);
    for (int i = 1; i < count; i++)
        for (size_t j = 0; j < sizeof SIGNALS / sizeof *SIGNALS; j++)
            EXPECT(kill(found[i], SIGNALS[j]), 0);
}

static void is_served(void)
{
    int t = timeline(), f = fence(t, 1);

    EXPECT(is_signalled(f), 0);
    EXPECT(inc(t, 1), 0);
    EXPECT(is_signalled(f), 1);
    close(f);
    close(t);
}

int main(int argc, char **argv)
{
    int kills_tool = argc > 2 && strcmp(argv[1], "tool") == 0;

    give_up_after(20);
    if (kills_tool) {
        HOLDS(freopen(argv[2], "w", stdout));
        EXPECT(kill(getppid(), SIGKILL), 0);
    } else {
        send_signals();
    }
    pause_for(LATE);
    is_served();
    return report("undisturbed");
}
