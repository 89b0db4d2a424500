/* usage: killed TOOL ORDER MICROSECONDS [WORD ...]
 *
 * Runs itself under the tool. Processes then wait in all ways for points that are never reached, and after some time
 * the tool's own processes are killed in the order of the letters: T is the tool, S its server, G its guard; - waits
 * until there is a guard again, and L for the program and the tool to end. A process that sees success reports it. All
 * processes must end soon, and before the tool does, unless the tool was killed. The words:
 *
 *   full     the service has no descriptor left
 *   blind    no process can read /proc any more
 *   deaf     standard error is a pipe that is never read; closed: a pipe without a reader
 *   nested   the tool runs another tool, whose processes wait
 *   early    the order begins with the start of the tool, whose program ends at once
 *   large    the environment is large, and the tool's variables are its last */
#include "service.h"
#include <sched.h>
#include <sys/epoll.h>
#include <sys/mount.h>
#include <sys/select.h>
#include <sys/syscall.h>

/* In seconds: how long processes run that are never killed, and within what time the others must have ended. */
enum { LONGEST = 30, IN_TIME = 15, LONGEST_UNSEEN = 3 };
enum { FEW = 64 };

static unsigned longest = LONGEST;
static int is_full, is_blind, is_deaf, is_closed, is_nested, is_early, is_large;

/* The pipe for what the waiting processes report. It ends with the last of them. */
static int tells;

static int tell(const char *what)
{
    return write(tells, what, strlen(what)) < 0;
}

/* Waits as libsync's sync_wait: whatever isn't an error is success. */
static int waits_by_poll(int f)
{
    struct pollfd polled = { .fd = f, .events = POLLIN };
    int count = poll(&polled, 1, -1);

    return count > 0 && !(polled.revents & (POLLERR | POLLNVAL)) ? tell("poll ") : 0;
}

static int waits_by_select(int f)
{
    fd_set set;

    FD_ZERO(&set);
    FD_SET(f, &set);
    return select(f + 1, &set, NULL, NULL, NULL) > 0 && FD_ISSET(f, &set) ? tell("select ") : 0;
}

static int waits_by_epoll(int f)
{
    struct epoll_event event = { .events = EPOLLIN };
    int group = epoll_create1(EPOLL_CLOEXEC);

    return epoll_ctl(group, EPOLL_CTL_ADD, f, &event) == 0 && epoll_wait(group, &event, 1, -1) > 0 ? tell("epoll ") : 0;
}

static int asks(int f)
{
    struct sync_file_info info = { .num_fences = 0 };

    while (ioctl(f, SYNC_IOC_FILE_INFO, &info) < 0 || info.status == 0)
        info.num_fences = 0;
    return tell("info ");
}

static int merges(int f)
{
    for (;;) {
        int both = merge("both", f, f);
        if (both >= 0 && ready(both, POLLIN, 0) & (POLLIN | POLLHUP))
            return tell("merge ");
        if (both >= 0)
            close(both);
    }
}

static int waits_for_buffer(int f)
{
    int b = buffer(1);

    while (b < 0 || import(b, f, DMA_BUF_SYNC_WRITE))
        pause_for(1);
    return ready(b, POLLIN, -1) & (POLLIN | POLLHUP) ? tell("buffer ") : 0;
}

/* Waits by a system call, which no library sees. */
static int waits_directly(int f)
{
    struct pollfd polled = { .fd = f, .events = POLLIN };

    return syscall(SYS_ppoll, &polled, 1, NULL, NULL, 0) > 0 && polled.revents & (POLLIN | POLLHUP) ? tell("call ") : 0;
}

static int (*const ways[])(int) = {
    waits_by_poll, waits_by_select, waits_by_epoll, asks, merges, waits_for_buffer, waits_directly
};
enum { WAYS = sizeof ways / sizeof *ways };

/* Starts a child that waits; with `apart`, in a session of its own and without its parent. */
static void begin(int f, int way, int apart)
{
    if (fork())
        return;
    if (apart) {
        setsid();
        if (fork())
            _exit(0);
    }
    alarm(longest);
    ways[way](f);
    pause_for(1000 * (int)longest);
    _exit(0);
}

/* Waiting processes are recognised by their name, and by this variable in their environment, set to this process's
 * number. */
#define MARK "KILLED_BY"

static void set_mark(pid_t process)
{
    char number[16];

    snprintf(number, sizeof number, "%d", (int)process);
    setenv(MARK, number, 1);
}

static int has_mark(pid_t process)
{
    static char text[1 << 16];
    char path[64], wanted[64];
    int file, length, found;

    length = snprintf(wanted, sizeof wanted, MARK "=%d", (int)getpid());
    snprintf(path, sizeof path, "/proc/%d/environ", (int)process);
    file = open(path, O_RDONLY | O_CLOEXEC);
    found = file < 0 ? -1 : (int)read(file, text, sizeof text);
    if (file >= 0)
        close(file);
    return found > 0 && memmem(text, (size_t)found, wanted, (size_t)length + 1) != NULL;
}

/* Returns how many waiting processes are still running. */
static int left(void)
{
    DIR *folder = opendir("/proc");
    struct dirent *entry;
    int count = 0;

    while (folder && (entry = readdir(folder))) {
        pid_t process = isdigit((unsigned char)entry->d_name[0]) ? atoi(entry->d_name) : 0;
        if (process && process != getpid() && is_named(process, "killed") && has_mark(process))
            count++;
    }
    if (folder)
        closedir(folder);
    return count;
}

/* The program: starts all waiting processes, reports that, and, unless it is to leave, runs until its input ends. */
static int program(int leaves)
{
    int t = timeline(), f = fence(t, 1), u = timeline();

    if (is_early)
        return 0;
    alarm(longest);
    if (f < 0 || u < 0)
        return tell("nothing ");
    for (int i = 0; i < WAYS; i++) {
        begin(f, i, 0);
        begin(f, i, 1);
    }
    while (is_full && timeline() >= 0) {
    }
    tell("!");
    if (leaves)
        return read(STDIN_FILENO, &(char){ 0 }, 1) != 0;
    for (__u32 i = 1;; i++) {
        int g = fence(u, i);
        inc(u, 1);
        if (g >= 0)
            close(g);
    }
}

/* The processes of the tool, 0 once they are killed; and the tool's exit status, as in a shell. */
static struct {
    pid_t tool, server, guard;
    int status;
} run;

/* Finds a child by its name, other than `other`. Returns 0 if there is none. */
static pid_t child_of(pid_t parent, const char *name, pid_t other)
{
    pid_t found[MOST];
    int count = parent > 0 ? service(parent, other, found) : 0;

    for (int i = 1; i < count; i++)
        if (is_named(found[i], name))
            return found[i];
    return 0;
}

/* Waits for the guard with which the tool or the server replaces a killed one. */
static void await_guard(pid_t killed)
{
    for (int left = SOON / 10; !run.guard && left > 0; left--) {
        run.guard = child_of(run.tool, "fence-guard", killed);
        if (!run.guard)
            run.guard = child_of(run.server, "fence-guard", killed);
        if (!run.guard)
            pause_for(1);
    }
}

static void end(pid_t *process)
{
    HOLDS(*process > 0 && kill(*process, SIGKILL) == 0);
    *process = 0;
}

static void kill_in(const char *order)
{
    pid_t tool = run.tool, guard = run.guard;

    for (; *order; order++)
        switch (*order) {
        case 'T': end(&run.tool); break;
        case 'S': end(&run.server); break;
        case 'G': end(&run.guard); break;
        case '-': pause_for(1), await_guard(guard); break;
        default: run.status = end_of(tool); run.tool = 0;
        }
}

/* Makes a pipe that is full, or has no reader. */
static int useless_errors(void)
{
    static const char bytes[4096];
    int pair[2];

    if (pipe(pair))
        return -1;
    if (is_closed) {
        close(pair[0]);
        return pair[1];
    }
    fcntl(pair[1], F_SETFL, O_NONBLOCK);
    while (write(pair[1], bytes, sizeof bytes) > 0) {
    }
    fcntl(pair[1], F_SETFL, 0);
    return pair[1];
}

/* Adds variables of some 300 KB. */
static void enlarge_environment(void)
{
    static char value[100000], name[16];

    memset(value, 'x', sizeof value - 1);
    for (int i = 0; i < 3; i++) {
        snprintf(name, sizeof name, "LARGE_%d", i);
        setenv(name, value, 1);
    }
}

static void become_tool(char **argv, int input, int errors)
{
    char told[16], *all[MOST] = { argv[1], argv[1], argv[0], "--in", told }, **words = is_nested ? all : all + 1;
    struct rlimit few = { FEW, FEW };

    snprintf(told, sizeof told, "%d", tells);
    set_mark(getppid());
    if (is_large)
        enlarge_environment();
    for (int i = 2; argv[i] && i < MOST - 4; i++)
        all[i + 3] = argv[i];
    if (is_full)
        setrlimit(RLIMIT_NOFILE, &few);
    dup2(input, STDIN_FILENO);
    dup2(errors, STDERR_FILENO);
    close(errors);
    execv(words[0], words);
    _exit(127);
}

/* Reads the reports of the processes until one says that all have started, or the last has ended. */
static void hear(int file, char *text, size_t room, int until_begun)
{
    size_t length = 0;

    while (length < room - 1 && read(file, text + length, 1) == 1)
        if (text[length++] == '!' && until_begun)
            break;
    text[length] = 0;
}

/* Finds the processes, kills them after some time, and waits until all have ended. */
static void kill_all(char **argv, int heard, int input)
{
    char text[256] = "";
    __u64 from;

    if (!is_early) {
        hear(heard, text, sizeof text, 1);
        run.server = child_of(run.tool, "bimphlai-run", 0);
        run.guard = child_of(run.tool, "fence-guard", 0);
        HOLDS(strcmp(text, "!") == 0 && run.server > 0 && run.guard > 0);
    }
    close(input);
    usleep((useconds_t)atoi(argv[3]));
    HOLDS(!is_blind || mount("none", "/proc", "tmpfs", 0, NULL) == 0);
    from = now();
    kill_in(argv[2]);
    if (run.tool && !is_blind && !is_early) {
        run.status = end_of(run.tool);
        EXPECT(left(), 0);
    }
    hear(heard, text, sizeof text, 0);
    HOLDS(now() - from < IN_TIME * 1000000000ull);
    if (*text)
        printf("seen: %s\n", text);
    HOLDS(!*text);
}

static int has_word(char **argv, const char *word)
{
    for (; *argv; argv++)
        if (strcmp(*argv, word) == 0)
            return 1;
    return 0;
}

static void take_words(char **argv)
{
    is_full = has_word(argv, "full");
    is_blind = has_word(argv, "blind");
    is_deaf = has_word(argv, "deaf");
    is_closed = has_word(argv, "closed");
    is_nested = has_word(argv, "nested");
    is_early = has_word(argv, "early");
    is_large = has_word(argv, "large");
    /* A process that can't be found blocks forever. */
    longest = is_blind ? LONGEST_UNSEEN : LONGEST;
}

/* Checks what the tool printed, if its standard error could be read, and how it ended. */
static void look_at_end(const char *order, int errors)
{
    static char said[4096];

    if (run.status < 0)
        run.status = end_of(run.tool > 0 ? run.tool : -1);
    HOLDS(run.status == (strchr(order, 'T') ? 128 + SIGKILL : strchr(order, 'L') ? 0 : 123) || (is_early && run.status == 0));
    if (run.status != 123 || is_deaf || is_closed)
        return;
    HOLDS(pread(errors, said, sizeof said - 1, 0) > 0);
    HOLDS(strstr(said, "bimphlai-run: the service ended"));
}

int main(int argc, char **argv)
{
    char name[] = "/tmp/killed.XXXXXX";
    int told[2], input[2], errors;

    if (argc < 4)
        return 2;
    take_words(argv);
    if (strcmp(argv[1], "--in") == 0) {
        tells = atoi(argv[2]);
        return program(strchr(argv[3], 'L') != NULL);
    }
    give_up_after(3 * LONGEST);
    errors = is_deaf || is_closed ? useless_errors() : mkstemp(name);
    if (pipe(told) || pipe2(input, O_CLOEXEC) || errors < 0)
        return 2;
    tells = told[1];
    run.status = -1;
    pid_t tool = run.tool = fork();
    if (tool == 0)
        become_tool(argv, input[0], errors);
    close(tells);
    kill_all(argv, told[0], input[1]);
    run.tool = tool;
    look_at_end(argv[2], errors);
    unlink(name);
    return report("killed");
}
