/* Many timelines, files and buffers, at a time and one after another. */
#include "kernel.h"

enum { TIMELINES = 300, IN_TURN = 5000, FILES = 5000, BUFFERS = 1000, SPARE = 200 };

static int all[FILES], timelines[TIMELINES];

static void timelines_at_a_time(void)
{
    for (int i = 0; i < TIMELINES; i++) {
        timelines[i] = timeline();
        all[i] = fence(timelines[i], 2);
    }
    for (int i = 0; i < TIMELINES; i++) {
        EXPECT(inc(timelines[i], 1 + i % 2), 0);
        EXPECT(is_signalled(all[i]), i % 2);
    }
    for (int i = 0; i < TIMELINES; i++) {
        close(timelines[i]);
        EXPECT(status(all[i]), i % 2 ? 1 : -ENOENT);
        close(all[i]);
    }
}

static void timelines_in_turn(void)
{
    int wrong = 0;

    for (int i = 0; i < IN_TURN; i++) {
        int t = timeline(), f = fence(t, 1);
        wrong += is_signalled(f) != 0;
        if (i % 2)
            wrong += inc(t, 1) != 0;
        wrong += close(t) != 0 || is_signalled(f) != 1 || close(f) != 0;
    }
    EXPECT(wrong, 0);
}

/* Returns the size of a new pipe of the program's own. */
static int room_of_pipe(void)
{
    int pair[2], room;

    if (pipe(pair))
        return -1;
    room = fcntl(pair[1], F_GETPIPE_SZ);
    close(pair[0]);
    close(pair[1]);
    return room;
}

/* Signals half of the files of one timeline, step by step. */
static void files_at_a_time(int count)
{
    int t = timeline(), wrong = 0, room = room_of_pipe();

    for (int i = 0; i < count; i++) {
        all[i] = fence(t, 1 + (__u32)(i % 100));
        wrong += all[i] < 0;
    }
    EXPECT(wrong, 0);
    EXPECT(room_of_pipe(), room);
    for (__u32 value = 1; value <= 50; value++)
        wrong += inc(t, 1) != 0;
    for (int i = 0; i < count; i++)
        wrong += is_signalled(all[i]) != (i % 100 < 50);
    EXPECT(wrong, 0);
    int pending = all[99], done = all[0], joined = merge("joined", pending, done);
    EXPECT(size(joined), 1);
    EXPECT(status(joined), 0);
    close(t);
    EXPECT(status(joined), -ENOENT);
    close(joined);
    for (int i = 0; i < count; i++) {
        wrong += is_signalled(all[i]) != 1;
        close(all[i]);
    }
    EXPECT(wrong, 0);
}

static void files_in_turn(void)
{
    int t = timeline(), wrong = 0, joined = fence(t, IN_TURN + 1);

    for (__u32 i = 1; i <= IN_TURN / 5; i++) {
        int f = fence(t, i), more = merge("more", joined, f);
        wrong += f < 0 || more < 0 || inc(t, 1) || !is_signalled(f) || is_signalled(more);
        close(joined);
        close(f);
        joined = more;
    }
    EXPECT(wrong, 0);
    EXPECT(size(joined), 1);
    close(joined);
    close(t);
}

static void buffers(int count)
{
    int t = timeline(), f = fence(t, 1), wrong = 0;

    for (int i = 0; i < count; i++) {
        all[i] = buffer(1);
        wrong += all[i] < 0 || import(all[i], f, DMA_BUF_SYNC_WRITE) != 0;
    }
    for (int i = 0; i < count; i += 50)
        wrong += ready(all[i], POLLIN, 0) != 0;
    inc(t, 1);
    for (int i = 0; i < count; i += 50)
        wrong += ready(all[i], POLLIN, 0) != POLLIN;
    EXPECT(wrong, 0);
    for (int i = 0; i < count; i++)
        close(all[i]);
    for (int i = 0; i < count; i++) {
        int b = buffer(1);
        wrong += b < 0 || ready(b, POLLOUT, 0) != POLLOUT || close(b);
    }
    EXPECT(wrong, 0);
    close(f);
    close(t);
}

int main(void)
{
    /* A file may need two descriptors. */
    int before = lowest(), room = ((int)most_descriptors() - SPARE) / 2;

    give_up_after(60);
    timelines_at_a_time();
    timelines_in_turn();
    files_at_a_time(room < FILES ? room : FILES);
    files_in_turn();
    buffers(room < BUFFERS ? room : BUFFERS);
    EXPECT(lowest(), before);
    return report("many");
}
