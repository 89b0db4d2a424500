/* The page that a service shares with its processes: no process can write it, and each read is of one write. Link it
 * with run/page.c. */
#define _GNU_SOURCE
#include "../../run/page.h"
#include "../c/expect.h"
#include <errno.h>
#include <signal.h>
#include <string.h>
#include <sys/mman.h>
#include <sys/resource.h>
#include <sys/time.h>
#include <unistd.h>

enum { WRITES = 5000, MICROSECONDS = 50, LETTERS = 8, NUMBER = 77 };

static struct bim_page *page;
static volatile int written;

/* Returns an answer all of whose bytes are one letter. */
static struct bim_answer letter(int which)
{
    struct bim_answer answer = { .status = which };

    memset(answer.name, 'a' + which, sizeof answer.name);
    memset(answer.row[0].obj_name, 'a' + which, sizeof answer.row[0].obj_name);
    memset(answer.row[0].driver_name, 'a' + which, sizeof answer.row[0].driver_name);
    answer.row[0].timestamp_ns = (unsigned)which;
    return answer;
}

static void write_letter(int signal)
{
    struct bim_answer answer = letter(++written % LETTERS);

    (void)signal;
    page_put(page, NUMBER, &answer);
}

static int is_whole(const struct bim_answer *answer)
{
    struct bim_answer wanted = letter(answer->status);

    return answer->rows == 1 && answer->fences == 1 && !memcmp(answer->name, wanted.name, sizeof wanted.name) &&
           !memcmp(&answer->row[0], &wanted.row[0], sizeof wanted.row[0]);
}

/* A write may interrupt a read at any moment, as here in a timer's handler. */
static void torn(const struct bim_page *read)
{
    struct sigaction action = { .sa_handler = write_letter };
    struct itimerval often = { { 0, MICROSECONDS }, { 0, MICROSECONDS } }, never = { { 0, 0 }, { 0, 0 } };
    struct bim_answer answer;
    long found = 0, wrong = 0;

    sigaction(SIGALRM, &action, NULL);
    setitimer(ITIMER_REAL, &often, NULL);
    while (written < WRITES)
        if (page_get(read, NUMBER, &answer)) {
            found++;
            wrong += !is_whole(&answer);
        }
    setitimer(ITIMER_REAL, &never, NULL);
    HOLDS(found > 0);
    EXPECT(wrong, 0);
}

/* A later file overwrites an earlier one, which isn't found any more. */
static void replaced(const struct bim_page *read)
{
    struct bim_answer answer = letter(3), came;

    page_put(page, NUMBER, &answer);
    HOLDS(page_get(read, NUMBER, &came) && came.status == 3);
    HOLDS(!page_get(read, NUMBER + PAGE_SLOTS, &came));
    answer = letter(5);
    page_put(page, NUMBER + PAGE_SLOTS, &answer);
    HOLDS(page_get(read, NUMBER + PAGE_SLOTS, &came) && came.status == 5);
    HOLDS(!page_get(read, NUMBER, &came));
    HOLDS(!page_get(read, NUMBER + 1, &came));
}

/* What a client may do with the memory that it is given. */
static void sealed(int memory, const struct bim_page *read)
{
    char byte = 1;

    HOLDS(mmap(NULL, sizeof *read, PROT_READ | PROT_WRITE, MAP_SHARED, memory, 0) == MAP_FAILED);
    EXPECT(mprotect((void *)(uintptr_t)read, sizeof *read, PROT_READ | PROT_WRITE), -1);
    EXPECT(pwrite(memory, &byte, 1, 0), -1);
    EXPECT(ftruncate(memory, 0), -1);
    EXPECT(ftruncate(memory, 2 * sizeof *read), -1);
}

/* If memory for a page is refused, nothing is left over, not even a descriptor. */
static void refused(void)
{
    struct rlimit before, none;
    int memory = 0;

    getrlimit(RLIMIT_FSIZE, &before);
    none = (struct rlimit){ 0, before.rlim_max };
    signal(SIGXFSZ, SIG_IGN);
    setrlimit(RLIMIT_FSIZE, &none);
    HOLDS(!page_new(&memory) && errno == EFBIG);
    EXPECT(memory, -1);
    setrlimit(RLIMIT_FSIZE, &before);
}

int main(void)
{
    const struct bim_page *read;
    int memory;

    refused();
    page = page_new(&memory);
    HOLDS(page);
    read = page_open(memory);
    HOLDS(read);
    sealed(memory, read);
    replaced(read);
    torn(read);
    close(memory);
    page_close((struct bim_page *)(uintptr_t)read);
    page_close(page);
    return report("pages");
}
