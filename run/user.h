/* Copies between an ioctl and its caller's memory. EFAULT says that the memory isn't mapped. */
#ifndef BIM_RUN_USER_H
#define BIM_RUN_USER_H

#include <stdbool.h>
#include <stddef.h>
#include <stdint.h>
#include <string.h>

enum { USER_NEAR_BYTES = 16384 };

/* Fast path: callers mostly pass memory on their stack, just above this frame, which is readable without a check. */
static inline bool user_is_near(const void *at, size_t length)
{
    uintptr_t here = (uintptr_t)__builtin_frame_address(0), begin = (uintptr_t)at;

    return begin >= here && begin - here < USER_NEAR_BYTES && length < USER_NEAR_BYTES;
}

/* Have the kernel copy the bytes. Return 0 or EFAULT. */
int user_get_far(void *to, const void *from, size_t length);
int user_put_far(void *to, const void *from, size_t length);

/* Return 0 or EFAULT. */
static inline int user_get(void *to, const void *from, size_t length)
{
    if (!user_is_near(from, length))
        return user_get_far(to, from, length);
    memcpy(to, from, length);
    return 0;
}

static inline int user_put(void *to, const void *from, size_t length)
{
    if (!user_is_near(to, length))
        return user_put_far(to, from, length);
    memcpy(to, from, length);
    return 0;
}

/* Reads a string into `room` bytes. Returns EINVAL if it is longer. */
int user_get_text(char *to, const char *from, size_t room);

#endif
