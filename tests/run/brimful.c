/* usage: brimful [by-service]
 *
 * A process whose table of descriptors is full asks and increments as on a kernel: none of these calls needs a number.
 * So does, with "by-service", a child, which has to connect first, and a handler that the library doesn't see, which
 * asks by a connection of its own. Needs a hard limit above the soft one for that. */
#include "kernel.h"
#include <dlfcn.h>
#include <signal.h>
#include <sys/time.h>

enum { PAGE = 4096, MOMENTS = 2000 };

static int t, u, f, g, b;

static void fill(void)
{
    struct rlimit limit;

    getrlimit(RLIMIT_NOFILE, &limit);
    limit.rlim_cur = (rlim_t)lowest();
    EXPECT(setrlimit(RLIMIT_NOFILE, &limit), 0);
    FAILS(dup(0), EMFILE);
}

static void asks(void)
{
    char *memory;

    FAILS(fence(t, 5), EMFILE);
    EXPECT(status(f), 0);
    EXPECT(inc(t, 1), 0);
    EXPECT(status(f), 1);
    memory = mmap(NULL, PAGE, PROT_READ | PROT_WRITE, MAP_SHARED, b, 0);
    HOLDS(memory != MAP_FAILED);
    munmap(memory, PAGE);
    FAILS(dup(0), EMFILE);
}

static void begin(void)
{
    t = timeline();
    u = timeline();
    f = fence(t, 1);
    g = fence(u, 1);
    b = buffer(PAGE);
    HOLDS(b >= 0);
}

static void end(void)
{
    const int all[] = { t, u, f, g, b };

    for (size_t i = 0; i < sizeof all / sizeof *all; i++)
        close(all[i]);
}

static void in_child(void)
{
    pid_t child;

    begin();
    fflush(stdout);
    child = fork();
    if (child == 0) {
        failures = 0;
        fill();
        asks();
        EXPECT(close(u), 0);
        fflush(stdout);
        _exit(failures != 0);
    }
    EXPECT(end_of(child), 0);
    EXPECT(is_signalled(f), 1);
    EXPECT(is_signalled(g), 0);
    end();
}

static volatile int handled, wrong;

static void handle(int number)
{
    int before = errno;

    (void)number;
    wrong += inc(u, 0) != 0 || status(f) != 0;
    handled++;
    errno = before;
}

/* Installs a handler without the library's knowledge, and lets it interrupt requests. */
static void in_handler(void)
{
    void *library = dlopen("libc.so.6", RTLD_LAZY | RTLD_NOLOAD), *found = library ? dlsym(library, "sigaction") : NULL;
    int (*install)(int, const struct sigaction *, struct sigaction *);
    struct sigaction action = { .sa_handler = handle, .sa_flags = SA_RESTART };
    struct itimerval often = { { 0, 300 }, { 0, 300 } }, never = { { 0, 0 }, { 0, 0 } };

    HOLDS(found);
    memcpy(&install, &found, sizeof install);
    begin();
    fill();
    EXPECT(install(SIGALRM, &action, NULL), 0);
    setitimer(ITIMER_REAL, &often, NULL);
    while (handled < MOMENTS)
        HOLDS(status(f) == 0);
    setitimer(ITIMER_REAL, &never, NULL);
    EXPECT(wrong, 0);
    end();
}

int main(int argc, char **argv)
{
    (void)argv;
    if (argc > 1) {
        in_child();
        in_handler();
    } else {
        give_up_after(30);
        begin();
        fill();
        asks();
        end();
    }
    return report("brimful");
}
