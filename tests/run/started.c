/* usage: started TOOL
 *
 * Runs itself under the tool as other programs may: with signals ignored and sent, with closed streams, and with the
 * environment of another user. */
#include "service.h"
#include <sys/un.h>

enum { OTHER_USER = 65534 };

static const char *tool, *self;

/* Executes the tool, which runs this program with two words. */
static void become_tool(const char *word, const char *more)
{
    execl(tool, "bimphlai-run", self, "--in", word, more, (char *)NULL);
    _exit(99);
}

/* The tool learns of its child's end, and the program still ignores SIGCHLD. */
static void try_ignored(void)
{
    pid_t child = fork();

    if (child == 0) {
        signal(SIGCHLD, SIG_IGN);
        become_tool("ignored", "");
    }
    EXPECT(end_of(child), 0);
}

static int ignored(void)
{
    struct sigaction is;

    EXPECT(sigaction(SIGCHLD, NULL, &is), 0);
    HOLDS(is.sa_handler == SIG_IGN);
    HOLDS(timeline() >= 0);
    return failures;
}

/* A process that outlives the tool keeps the service, though the tool was started without streams. The program has no
 * streams either. */
static void try_closed(void)
{
    char result[16] = "";
    int pair[2];
    pid_t child;

    if (pipe(pair))
        return;
    child = fork();
    if (child == 0) {
        char number[16];
        snprintf(number, sizeof number, "%d", fcntl(pair[1], F_DUPFD, 10));
        for (int file = 0; file < 10; file++)
            close(file);
        become_tool("closed", number);
    }
    close(pair[1]);
    EXPECT(end_of(child), 0);
    HOLDS(read(pair[0], result, sizeof result) > 0);
    EXPECT(strcmp(result, "well"), 0);
    close(pair[0]);
}

static int closed(int results)
{
    pid_t parent = getppid();

    for (int file = STDIN_FILENO; file <= STDERR_FILENO; file++)
        HOLDS(fcntl(file, F_GETFD) < 0);
    HOLDS(timeline() >= 0);
    if (failures || fork())
        return failures;
    setsid();
    give_up_after(20);
    while (kill(parent, 0) == 0)
        pause_for(1);
    pause_for(50);
    int t = timeline(), f = fence(t, 1);
    int well = inc(t, 1) == 0 && is_signalled(f);
    return write(results, well ? "well" : "ill", 5) != 5;
}

/* SIGTERM from another process neither ends the server, nor makes it miss the end of the program. */
static void try_server(void)
{
    pid_t found[MOST], child = fork(), server = 0;

    if (child == 0)
        become_tool("server", "");
    for (int left = SOON; !server && left > 0; left--) {
        int count = service(child, 0, found);
        if (count > 1)
            server = found[1];
        pause_for(1);
    }
    pause_for(100);
    kill(server, SIGTERM);
    pause_for(100);
    kill(server, SIGSTOP);
    kill(server, SIGTERM);
    pause_for(400);
    kill(server, SIGCONT);
    EXPECT(end_of(child), 0);
}

static int makes_for_a_while(void)
{
    for (int i = 0; i < 3; i++) {
        int t = timeline(), f = fence(t, 1);
        HOLDS(f >= 0);
        close(f);
        close(t);
        pause_for(100);
    }
    return failures;
}

/* Signals that other processes send to the tool go to the program, and don't end the tool. */
static const int SENT[] = { SIGALRM, SIGVTALRM, SIGPIPE, SIGIO, SIGUSR1, SIGTERM };
enum { MOST_SENT = sizeof SENT / sizeof *SENT };

enum { VALUE = 77 };

static volatile sig_atomic_t taken, value;

static void take(int number)
{
    (void)number;
    taken++;
}

static void take_value(int number, siginfo_t *info, void *context)
{
    (void)context;
    value = info->si_value.sival_int;
    take(number);
}

static void try_signals(void)
{
    int pair[2];
    char number[16], byte;

    if (pipe(pair))
        return;
    snprintf(number, sizeof number, "%d", pair[1]);
    pid_t child = fork();
    if (child == 0)
        become_tool("signals", number);
    close(pair[1]);
    HOLDS(read(pair[0], &byte, 1) == 1);
    for (int i = 0; i < MOST_SENT; i++) {
        kill(child, SENT[i]);
        pause_for(20);
    }
    sigqueue(child, SIGUSR2, (union sigval){ .sival_int = VALUE });
    EXPECT(end_of(child), 0);
    close(pair[0]);
}

static int signals(int begun)
{
    struct sigaction with_value = { .sa_sigaction = take_value, .sa_flags = SA_SIGINFO };

    EXPECT(sigaction(SIGUSR2, &with_value, NULL), 0);
    for (int i = 0; i < MOST_SENT; i++)
        signal(SENT[i], take);
    HOLDS(write(begun, "!", 1) == 1);
    for (int left = SOON; taken <= MOST_SENT && left > 0; left--)
        pause_for(1);
    EXPECT(taken, MOST_SENT + 1);
    EXPECT(value, VALUE);
    HOLDS(timeline() >= 0);
    return failures;
}

/* The socket isn't in a folder in which other users can put theirs. */
static void try_folder(void)
{
    char folder[] = "/tmp/started.XXXXXX";
    pid_t child;

    HOLDS(mkdtemp(folder));
    if (geteuid() != 0 || chown(folder, OTHER_USER, OTHER_USER))
        HOLDS(chmod(folder, 0777) == 0);
    child = fork();
    if (child == 0) {
        setenv("XDG_RUNTIME_DIR", folder, 1);
        become_tool("folder", folder);
    }
    EXPECT(end_of(child), 0);
    rmdir(folder);
}

static int elsewhere(const char *folder)
{
    const char *socket = getenv("BIMPHLAI_RUN");

    HOLDS(socket && strncmp(socket, folder, strlen(folder)) != 0);
    HOLDS(timeline() >= 0);
    return failures;
}

/* Another user serves. Returns whether any process asks. */
static int impostor(const char *path, int ready_to)
{
    struct sockaddr_un at = { .sun_family = AF_UNIX };
    int listener = socket(AF_UNIX, SOCK_SEQPACKET, 0), client;
    char byte;

    strncpy(at.sun_path, path, sizeof at.sun_path - 1);
    if (setgid(OTHER_USER) || setuid(OTHER_USER) || bind(listener, (struct sockaddr *)&at, sizeof at) || listen(listener, 1))
        return 2;
    chmod(path, 0666);
    if (write(ready_to, "!", 1) != 1)
        return 2;
    client = accept(listener, NULL, NULL);
    return recv(client, &byte, 1, 0) > 0;
}

static void try_impostor(void)
{
    char folder[] = "/tmp/started.XXXXXX", path[64], byte;
    int pair[2];
    pid_t other, child;

    if (geteuid() != 0)
        return;
    HOLDS(mkdtemp(folder) && chown(folder, OTHER_USER, OTHER_USER) == 0 && pipe(pair) == 0);
    snprintf(path, sizeof path, "%s/socket", folder);
    other = fork();
    if (other == 0)
        _exit(impostor(path, pair[1]));
    HOLDS(read(pair[0], &byte, 1) == 1);
    child = fork();
    if (child == 0)
        become_tool("impostor", path);
    EXPECT(end_of(child), 123);
    EXPECT(end_of(other), 0);
    unlink(path);
    rmdir(folder);
}

static int by_impostor(const char *path)
{
    setenv("BIMPHLAI_RUN", path, 1);
    execl(self, self, "--in", "asks", "", (char *)NULL);
    return 99;
}

static int program(const char *word, const char *more)
{
    give_up_after(30);
    if (strcmp(word, "ignored") == 0)
        return ignored();
    if (strcmp(word, "closed") == 0)
        return closed(atoi(more));
    if (strcmp(word, "server") == 0)
        return makes_for_a_while();
    if (strcmp(word, "signals") == 0)
        return signals(atoi(more));
    if (strcmp(word, "folder") == 0)
        return elsewhere(more);
    if (strcmp(word, "impostor") == 0)
        return by_impostor(more);
    return timeline() < 0;
}

int main(int argc, char **argv)
{
    self = argv[0];
    if (argc == 4)
        return program(argv[2], argv[3]);
    if (argc != 2)
        return 2;
    tool = argv[1];
    give_up_after(60);
    try_ignored();
    try_closed();
    try_server();
    try_signals();
    try_folder();
    try_impostor();
    return report("started");
}
