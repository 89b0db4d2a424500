/* Expectations, shared by the programs here. Failures are counted, and reported with file and line. */
#ifndef EXPECT_H
#define EXPECT_H

#include <stdio.h>

static int failures;

static void expect(const char *file, int line, const char *what, long long came, long long wanted)
{
    if (came == wanted)
        return;
    failures++;
    printf("%s:%d: %s: expected %lld, came %lld\n", file, line, what, wanted, came);
}

/* Expects that a call returns a number. */
#define EXPECT(call, wanted) expect(__FILE__, __LINE__, #call, (long long)(call), (long long)(wanted))

/* Expects that a condition holds. */
#define HOLDS(what) EXPECT(!!(what), 1)

/* Reports failures, and returns the program's exit status. */
static int report(const char *name)
{
    if (failures == 0)
        printf("%s: as expected\n", name);
    return failures != 0;
}

#endif
