/* 32-bit points: which are reached, on both sides of the wrap of values. */
#include "kernel.h"
#include <limits.h>

static int is_reached(int t, __u32 point)
{
    int f = fence(t, point), reached = is_signalled(f);

    EXPECT(status(f), reached);
    close(f);
    return reached;
}

static void first_points(void)
{
    int t = timeline();

    EXPECT(is_reached(t, 0), 1);
    EXPECT(is_reached(t, 1), 0);
    EXPECT(is_reached(t, INT_MAX), 0);
    EXPECT(is_reached(t, (__u32)INT_MAX + 1), 1);
    EXPECT(is_reached(t, UINT_MAX), 1);
    EXPECT(inc(t, 0), 0);
    EXPECT(is_reached(t, 1), 0);
    EXPECT(inc(t, 4), 0);
    EXPECT(is_reached(t, 4), 1);
    EXPECT(is_reached(t, 5), 0);
    close(t);
}

/* A fence waits for its point across the wrap, and then keeps its status. */
static void across_the_wrap(void)
{
    int t = timeline();

    EXPECT(inc(t, INT_MAX), 0);
    EXPECT(inc(t, INT_MAX), 0);                         /* the value is -2 */
    int before = fence(t, UINT_MAX), zero = fence(t, 0), after = fence(t, 3), passed = fence(t, UINT_MAX - 2);
    EXPECT(is_signalled(passed), 1);
    EXPECT(is_signalled(before) + is_signalled(zero) + is_signalled(after), 0);
    EXPECT(inc(t, 1), 0);
    EXPECT(is_signalled(before), 1);
    EXPECT(is_signalled(zero), 0);
    EXPECT(inc(t, 1), 0);
    EXPECT(is_signalled(zero), 1);
    EXPECT(is_signalled(after), 0);
    EXPECT(inc(t, 3), 0);
    EXPECT(is_signalled(after), 1);
    EXPECT(inc(t, INT_MAX), 0);
    EXPECT(is_signalled(before) + is_signalled(zero) + is_signalled(after) + is_signalled(passed), 4);
    close(before);
    close(zero);
    close(after);
    close(passed);
    close(t);
}

/* The longest step passes every point on its way, though the value ends one below its start. */
static void longest_step(void)
{
    int t = timeline();

    EXPECT(inc(t, 10), 0);
    int near = fence(t, 11), far = fence(t, 10u + INT_MAX);
    EXPECT(is_signalled(near) + is_signalled(far), 0);
    EXPECT(inc(t, UINT_MAX), 0);
    EXPECT(is_signalled(near), 1);
    EXPECT(is_signalled(far), 1);
    EXPECT(is_reached(t, 9), 1);
    EXPECT(is_reached(t, 10), 0);
    close(near);
    close(far);
    close(t);
}

/* A merge keeps the later of two points of a timeline, across the wrap too. */
static void merges_across_the_wrap(void)
{
    int t = timeline();

    EXPECT(inc(t, UINT_MAX - 1), 0);
    int early = fence(t, UINT_MAX), late = fence(t, 2), joined = merge("joined", late, early);
    EXPECT(size(joined), 1);
    EXPECT(inc(t, 1), 0);
    EXPECT(is_signalled(early), 1);
    EXPECT(is_signalled(joined), 0);
    EXPECT(inc(t, 3), 0);
    EXPECT(is_signalled(joined), 1);
    close(early);
    close(late);
    close(joined);
    close(t);
}

/* Wraps many times. */
static void many_turns(void)
{
    int t = timeline();
    __u32 value = 0;

    for (int turn = 0; turn < 40; turn++) {
        __u32 step = 0x4000000bu * (1 + turn % 3);
        int f = fence(t, value + 0x3fffffffu);
        EXPECT(is_signalled(f), 0);
        EXPECT(inc(t, step), 0);
        value += step;
        EXPECT(is_signalled(f), 1);
        EXPECT(is_reached(t, value), 1);
        EXPECT(is_reached(t, value + 1), 0);
        close(f);
    }
    close(t);
}

int main(void)
{
    give_up_after(30);
    first_points();
    across_the_wrap();
    longest_step();
    merges_across_the_wrap();
    many_turns();
    return report("points");
}
