/* The ends of objects. A read leaves the time that names an object, also before Linux 6.15; and a signal returns at once,
 * whatever a process has written into the file's pipe. Compiled with run/endpoints.c. */
#include "kernel.h"
#include "../../run/endpoints.h"

static void pipes(enum bim_mark mark)
{
    struct endpoints ends;
    uint64_t number = 0;
    char byte;

    EXPECT(endpoints_pipe(&ends, mark), 0);
    EXPECT(endpoint_mark(ends.theirs, &number), mark);
    HOLDS(number == ends.inode && number != 0);
    HOLDS(fcntl(ends.theirs, F_GETFL) & O_NOATIME);
    HOLDS(!(fcntl(ends.theirs, F_GETFL) & O_NONBLOCK));
    HOLDS(fcntl(ends.ours, F_GETFL) & O_NONBLOCK);
    EXPECT(endpoint_is_ours(ends.ours), 1);
    EXPECT(endpoint_is_ours(ends.theirs), 0);
    EXPECT(ready(ends.theirs, POLLIN, 0), 0);
    endpoint_signal(ends.ours);
    EXPECT(ready(ends.theirs, POLLIN, 0), POLLIN);
    EXPECT(read(ends.theirs, &byte, 1), 1);
    EXPECT(endpoint_mark(ends.theirs, &number), mark);
    HOLDS(number == ends.inode);
    while (write(ends.ours, "", 1) == 1) {
    }
    endpoint_signal(ends.ours);
    EXPECT(ready(ends.theirs, POLLIN, 0), POLLIN);
    EXPECT(endpoint_is_alone(ends.ours), 0);
    endpoints_close(&ends);
}

static void sockets(void)
{
    struct endpoints ends;
    uint64_t number;

    EXPECT(endpoints_sockets(&ends), 0);
    EXPECT(endpoint_mark(ends.theirs, &number), BIM_BUFFER_MARK);
    HOLDS(number == ends.inode);
    EXPECT(ready(ends.theirs, POLLIN | POLLOUT, 0), POLLOUT);
    EXPECT(endpoint_set_readable(ends.ours), 0);
    EXPECT(ready(ends.theirs, POLLIN | POLLOUT, 0), POLLIN | POLLOUT);
    EXPECT(endpoint_take_readable(ends.theirs), 0);
    EXPECT(endpoint_take_writable(ends.theirs), 0);
    EXPECT(ready(ends.theirs, POLLIN | POLLOUT, 0), 0);
    endpoint_set_writable(ends.ours);
    EXPECT(ready(ends.theirs, POLLIN | POLLOUT, 0), POLLOUT);
    endpoints_close(&ends);
}

int main(void)
{
    give_up_after(10);
    pipes(BIM_TIMELINE_MARK);
    pipes(BIM_FILE_MARK);
    sockets();
    return report("endings");
}
