/* Where the library's own descriptors are, for each limit: a program keeps its numbers, 0, 1 and 2 above all, and select
 * reads no bit that it wouldn't read without them. Compiled with run/numbers.c. */
#include "kernel.h"
#include "../../run/numbers.h"
#include <sys/select.h>

enum { DOCKERS = 1 << 20, HARD = 4096, FEW = 8 };

static int mine;

static bool is_mine(int file)
{
    return file == mine;
}

static void table(void)
{
    static const struct {
        rlim_t soft, hard, of_link, of_registry, of_crowded;
        int raises;
    } rows[] = {
        { 3, 3, 3, 3, 3, 0 },
        { 12, 12, 4, 6, 6, 0 },
        { 64, 64, 56, 32, 32, 0 },
        { 64, HARD, 64, 32, 64, 1 },
        { 1023, 1023, 1015, 511, 511, 0 },
        { 1023, HARD, 1023, 511, 1023, 1 },
        { 1024, 1024, 1016, 512, 512, 0 },
        { 1024, HARD, 1024, 512, 1024, 1 },
        { 1025, 1025, 1016, 512, 512, 0 },
        { 1025, HARD, 1016, 512, 1025, 0 },
        { 20000, 20000, 1016, 512, 512, 0 },
        { 65535, 65535, 1016, 512, 512, 0 },
        { 65536, 65536, 1016, 512, 512, 0 },
        { 65537, 65537, 1016, 512, 512, 0 },
        { 65536, DOCKERS, 1016, 512, 65536, 0 },
        { DOCKERS, DOCKERS, 1016, 512, 512, 0 },
    };

    for (size_t i = 0; i < sizeof rows / sizeof *rows; i++) {
        struct rlimit limit = { rows[i].soft, rows[i].hard };
        struct numbers link = numbers_of_link(&limit), crowded = numbers_of_registry(&limit, 1);
        EXPECT(link.from, rows[i].of_link);
        EXPECT(link.raises, rows[i].raises);
        EXPECT(numbers_of_registry(&limit, 0).from, rows[i].of_registry);
        EXPECT(crowded.from, rows[i].of_crowded);
        EXPECT(crowded.raises, rows[i].soft < rows[i].hard);
    }
}

/* A descriptor with the number of a closed stream moves away from it, also when its place is taken. */
static void streams(void)
{
    struct numbers last = { 63, false };

    for (int file = 0; file < 3; file++)
        close(file);
    for (int file = 0; file < 3; file++) {
        int made = open("/dev/null", O_RDWR), moved;
        EXPECT(made, 0);
        moved = numbers_move(made, last, F_DUPFD_CLOEXEC);
        HOLDS(moved == 63 || (file > 0 && moved > STDERR_FILENO));
        FAILS(fcntl(0, F_GETFD), EBADF);
    }
}

static void moves(void)
{
    struct rlimit limit = { 64, 64 };
    pid_t child = fork();

    if (child == 0) {
        int errors = fcntl(STDERR_FILENO, F_DUPFD, 40);
        failures = 0;
        setrlimit(RLIMIT_NOFILE, &limit);
        streams();
        dup2(errors, STDOUT_FILENO);
        fflush(stdout);
        _exit(failures != 0);
    }
    EXPECT(end_of(child), 0);
}

/* The table has FD_SETSIZE numbers, then twice as many because of one own descriptor, then because of the program's. */
static void selects(void)
{
    struct rlimit limit;
    int theirs;

    getrlimit(RLIMIT_NOFILE, &limit);
    if (limit.rlim_max < HARD)
        return;
    most_descriptors();
    EXPECT(numbers_selected(-1, is_mine, 0), -1);
    EXPECT(numbers_selected(64, is_mine, 0), 64);
    EXPECT(numbers_selected(FD_SETSIZE, is_mine, 0), FD_SETSIZE);
    EXPECT(numbers_selected(HARD, is_mine, 0), FD_SETSIZE);
    mine = fcntl(0, F_DUPFD, FD_SETSIZE);
    EXPECT(numbers_selected(HARD, is_mine, mine + 1), FD_SETSIZE);
    EXPECT(numbers_selected(INT32_MAX, is_mine, mine + 1), FD_SETSIZE);
    theirs = fcntl(0, F_DUPFD, FD_SETSIZE);
    EXPECT(numbers_selected(HARD, is_mine, mine + 1), 2 * FD_SETSIZE);
    EXPECT(numbers_selected(FD_SETSIZE + 1, is_mine, mine + 1), FD_SETSIZE + 1);
    close(mine);
    mine = fcntl(0, F_DUPFD, HARD - 1);
    EXPECT(numbers_selected(INT32_MAX, is_mine, mine + 1), 2 * FD_SETSIZE);
    EXPECT(numbers_selected(INT32_MAX, is_mine, 0), HARD);
    close(theirs);
    EXPECT(numbers_selected(INT32_MAX, is_mine, mine + 1), FD_SETSIZE);
    close(mine);
}

int main(void)
{
    table();
    moves();
    selects();
    return report("numbers");
}
