#include "say.h"

#include "calls.h"

#include <stdarg.h>
#include <stdio.h>

/* A pipe that polls writable takes up to a page at once. */
enum { LINE_BYTES = 1024, MILLISECONDS_TO_TAKE = 1000 };

void say(const char *format, ...)
{
    struct pollfd errors = { STDERR_FILENO, POLLOUT, 0 };
    char line[LINE_BYTES] = "bimphlai-run: ";
    size_t begun = sizeof "bimphlai-run: " - 1;
    va_list values;

    va_start(values, format);
    begun += vsnprintf(line + begun, sizeof line - begun - 1, format, values);
    va_end(values);
    begun = begun < sizeof line - 2 ? begun : sizeof line - 2;
    line[begun++] = '\n';
    if (call_poll(&errors, 1, MILLISECONDS_TO_TAKE) > 0)
        call_write(STDERR_FILENO, line, begun);
}
