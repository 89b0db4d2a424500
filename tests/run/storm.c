/* usage: storm SEED
 *
 * Processes that make timelines and files, pass them to each other, merge, wait and close, and end in the middle of a
 * call, many of them killed. Afterwards the service holds none of their descriptors. */
#include "service.h"

enum { PROCESSES = 48, ACTS = 120, KEPT = 12, LINES = 4 };

static unsigned seed;

static int pick(int below)
{
    seed = seed * 1103515245u + 12345u;
    return (int)(seed >> 16) % below;
}

/* A process's objects: some files and some timelines, -1 for none. */
struct hand {
    int files[KEPT], timelines[LINES], socket;
};

static void replace(int *place, int fd)
{
    if (*place >= 0)
        close(*place);
    *place = fd;
}

/* Makes one call. Returns whether it had the right result. */
static int act(struct hand *hand)
{
    int *file = &hand->files[pick(KEPT)], *other = &hand->files[pick(KEPT)], *line = &hand->timelines[pick(LINES)], came;

    switch (pick(10)) {
    case 0:
        replace(line, timeline());
        return *line >= 0;
    case 1:
    case 2:
        replace(file, fence(*line, (__u32)pick(20)));
        return *line < 0 || *file >= 0;
    case 3:
        return inc(*line, (__u32)pick(3)) == 0 || *line < 0;
    case 4:
        came = *file >= 0 && *other >= 0 ? merge("storm", *file, *other) : -1;
        if (came < 0)
            return *file < 0 || *other < 0;
        replace(file, came);
        return 1;
    case 5:
        /* It is no failure if the socket is full, or if another process gets the timeline. */
        hand_over(hand->socket, pick(3) ? *file : *line);
        return 1;
    case 6:
        came = take_over(hand->socket, MSG_DONTWAIT);
        if (came >= 0 && inc(came, 0) == 0)
            replace(line, came);
        else if (came >= 0)
            replace(file, came);
        return 1;
    case 7:
        return *file < 0 || (ready(*file, POLLIN, pick(3)) & ~POLLIN) == 0;
    case 8:
        return *file < 0 || ioctl(*file, SYNC_IOC_FILE_INFO, &(struct sync_file_info){ .num_fences = 0 }) == 0;
    default:
        replace(pick(2) ? file : line, -1);
        return 1;
    }
}

/* Which processes of the storm run until their parent kills them, and which kill themselves; the others exit. */
static int is_endless(int number)
{
    return number % 3 == 1;
}

static int ends_itself(int number)
{
    return number % 3 == 0;
}

/* A process of the storm. */
static int live(int number, int socket)
{
    struct hand hand = { .socket = socket };
    int acts = ACTS / 2 + pick(ACTS), wrong = 0;

    seed += 7919u * (unsigned)number;
    for (int i = 0; i < KEPT; i++)
        hand.files[i] = -1;
    for (int i = 0; i < LINES; i++)
        hand.timelines[i] = -1;
    for (int i = 0; i < acts || is_endless(number); i++)
        wrong += !act(&hand);
    if (ends_itself(number))
        raise(SIGKILL);
    return wrong != 0;
}

/* Children that exit normally must have succeeded. */
static void end_all(const pid_t *children)
{
    for (int i = 0; i < PROCESSES; i++)
        if (is_endless(i)) {
            pause_for(1 + pick(5));
            kill(children[i], SIGKILL);
        }
    for (int i = 0; i < PROCESSES; i++)
        EXPECT(end_of(children[i]), is_endless(i) || ends_itself(i) ? 128 + SIGKILL : 0);
}

int main(int argc, char **argv)
{
    pid_t children[PROCESSES], tool = getppid(), found[MOST];
    int sockets[2];

    give_up_after(40);
    seed = argc > 1 ? (unsigned)atoi(argv[1]) : 1;
    int t = timeline(), f = fence(t, 1), many = service(tool, getpid(), found), before = held(found, many);
    EXPECT(socketpair(AF_UNIX, SOCK_DGRAM | SOCK_CLOEXEC, 0, sockets), 0);
    for (int i = 0; i < PROCESSES; i++) {
        pid_t child = fork();
        if (child == 0) {
            give_up_after(30);
            _exit(live(i, sockets[i % 2]));
        }
        children[i] = child;
    }
    end_all(children);
    close(sockets[0]);
    close(sockets[1]);
    expect_held(found, many, before);
    /* The service still serves. */
    EXPECT(is_signalled(f), 0);
    EXPECT(inc(t, 1), 0);
    EXPECT(is_signalled(f), 1);
    close(f);
    close(t);
    return report("storm");
}
