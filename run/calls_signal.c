/* sigaction(2) and its relatives: note whether the program has any signal handler, which may call the library in the
 * middle of a call. */
#define _GNU_SOURCE
#include "direct.h"
#include "shim.h"

#include <signal.h>

static void note(sighandler_t handler)
{
    if (handler != SIG_DFL && handler != SIG_IGN && handler != SIG_ERR && handler != SIG_HOLD)
        shim_note_handler();
}

#define SIGACTION(name)                                                                            \
    int name(int number, const struct sigaction *action, struct sigaction *before);                \
    EXPORT int name(int number, const struct sigaction *action, struct sigaction *before)          \
    {                                                                                              \
        NEXT(name);                                                                                \
        struct sigaction copy;                                                                     \
        int result;                                                                                \
                                                                                                   \
        if (number == SIGSYS && direct_is_on())                                                    \
            return 0;                                                                              \
        if (action && direct_is_on()) {                                                            \
            copy = *action;                                                                        \
            direct_may_block(&action->sa_mask, &copy.sa_mask);                                     \
            action = &copy;                                                                        \
        }                                                                                          \
        result = next(number, action, before);                                                     \
        if (result == 0 && action)                                                                 \
            note(action->sa_handler);                                                              \
        return result;                                                                             \
    }

SIGACTION(sigaction)
SIGACTION(__sigaction)

#define SIGNAL(name)                                           \
    sighandler_t name(int number, sighandler_t handler);       \
    EXPORT sighandler_t name(int number, sighandler_t handler) \
    {                                                          \
        NEXT(name);                                            \
                                                               \
        if (number == SIGSYS && direct_is_on())                \
            return SIG_DFL;                                    \
        note(handler);                                         \
        return next(number, handler);                          \
    }

SIGNAL(signal)
SIGNAL(bsd_signal)
SIGNAL(sysv_signal)
SIGNAL(__sysv_signal)
SIGNAL(ssignal)
#pragma GCC diagnostic push
#pragma GCC diagnostic ignored "-Wdeprecated-declarations"
SIGNAL(sigset)
#pragma GCC diagnostic pop

#define BLOCK(name)                                                            \
    EXPORT int name(int how, const sigset_t *signals, sigset_t *before)        \
    {                                                                          \
        NEXT(name);                                                            \
        sigset_t room;                                                         \
                                                                               \
        if (how != SIG_UNBLOCK)                                                \
            signals = direct_may_block(signals, &room);                        \
        return next(how, signals, before);                                     \
    }

BLOCK(sigprocmask)
BLOCK(pthread_sigmask)
