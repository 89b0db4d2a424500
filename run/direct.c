#define _GNU_SOURCE
#include "direct.h"

#include "calls.h"
#include "ioctls.h"
#include "loss.h"
#include "shim.h"

#include <errno.h>
#include <linux/audit.h>
#include <linux/filter.h>
#include <linux/seccomp.h>
#include <spawn.h>
#include <stddef.h>
#include <stdint.h>
#include <stdlib.h>
#include <sys/ioctl.h>
#include <sys/prctl.h>
#include <ucontext.h>

/* The registers of a system call's arguments and result. */
#if defined(__x86_64__)
#define MACHINE         AUDIT_ARCH_X86_64
#define RESULT(context) (context)->uc_mcontext.gregs[REG_RAX]
static const int WORDS[] = { REG_RDI, REG_RSI, REG_RDX, REG_R10 };
#define WORD(context, i) (context)->uc_mcontext.gregs[WORDS[i]]
#elif defined(__aarch64__)
#define MACHINE          AUDIT_ARCH_AARCH64
#define RESULT(context)  (context)->uc_mcontext.regs[0]
#define WORD(context, i) (context)->uc_mcontext.regs[i]
#endif

/* Older headers lack this code of SIGSYS. */
#ifndef SYS_SECCOMP
#define SYS_SECCOMP 1
#endif

/* Newer machines have only openat. */
#ifndef SYS_open
#define SYS_open SYS_openat
#endif

/* The ioctls that the filter catches, of objects and devices. */
static const uint32_t CALLS[] = {
    CREATE_FENCE, INC, SYNC_IOC_MERGE, SYNC_IOC_FILE_INFO, SET_DEADLINE, DMA_BUF_IOCTL_SYNC, DMA_BUF_SET_NAME_A,
    DMA_BUF_SET_NAME_B, EXPORT_SYNC_FILE, IMPORT_SYNC_FILE, DMA_HEAP_IOCTL_ALLOC, UDMABUF_CREATE, UDMABUF_CREATE_LIST
};

/* The filter lets a call pass that has these values in the registers of arguments that it doesn't use. The filter
 * survives exec, so it can't check the address of the caller. */
enum { PASS_ONE = 0x62696d70, PASS_TWO = 0x686c6169 };

/* A flag of open(2) that the kernel ignores. The filter lets such an open pass. */
enum { PASS_FLAG = 1 << 30 };

/* Offsets of the filter's parts. */
enum { COUNT = sizeof CALLS / sizeof CALLS[0], IOCTL = 7, OPENAT = IOCTL + COUNT + 2, OPEN = OPENAT + 4 };
enum { PASS = OPEN + 4, TRAP = PASS + 5, LENGTH = TRAP + 1 };

static bool is_on;
static volatile bool is_caught; /* a call was caught */

bool direct_is_on(void)
{
    return is_on;
}

const sigset_t *direct_may_block(const sigset_t *wanted, sigset_t *room)
{
    if (!is_on || !wanted)
        return wanted;
    *room = *wanted;
    sigdelset(room, SIGSYS);
    return room;
}

/* The child in which the C library opens a spawned program's files can't handle SIGSYS. */
EXPORT int posix_spawn_file_actions_addopen(posix_spawn_file_actions_t *actions, int file, const char *path, int flags,
                                            mode_t mode)
{
    NEXT(posix_spawn_file_actions_addopen);

    return next(actions, file, path, is_on ? flags | PASS_FLAG : flags, mode);
}

static long pass(long call, long a, long b, long c, long d)
{
    long result = syscall(call, a, b, c, d, (long)PASS_ONE, (long)PASS_TWO);

    return result < 0 ? -errno : result;
}

static long serve_ioctl(int file, unsigned long call, long arg)
{
    uint64_t inode;
    int result;

    if (!shim_mark(file, &inode))
        return pass(SYS_ioctl, file, call, arg, 0);
    result = ioctl(file, call, arg);
    return result < 0 ? -errno : result;
}

static long serve_open(int folder, long path, int flags, long mode)
{
    int file;

    if (!shim_open((const char *)path, flags, &file))
        return pass(SYS_openat, folder, path, flags, mode);
    return file < 0 ? -errno : file;
}

static void on_call(int number, siginfo_t *info, void *given)
{
    ucontext_t *context = given;
    int before = errno;

    (void)number;
    if (info->si_code != SYS_SECCOMP)
        return;
    is_caught = true;
    if (info->si_syscall == SYS_ioctl)
        RESULT(context) = serve_ioctl(WORD(context, 0), WORD(context, 1), WORD(context, 2));
    else if (info->si_syscall == SYS_openat)
        RESULT(context) = serve_open(WORD(context, 0), WORD(context, 1), WORD(context, 2), WORD(context, 3));
    else
        RESULT(context) = serve_open(AT_FDCWD, WORD(context, 0), WORD(context, 1), WORD(context, 2));
    errno = before;
}

static struct sock_filter load(size_t offset)
{
    return (struct sock_filter)BPF_STMT(BPF_LD | BPF_W | BPF_ABS, offset);
}

static struct sock_filter load_word(int word)
{
    return load(offsetof(struct seccomp_data, args) + word * sizeof(uint64_t));
}

static struct sock_filter answer(uint32_t answer)
{
    return (struct sock_filter)BPF_STMT(BPF_RET | BPF_K, answer);
}

/* Jumps to the instruction `same` or `other`, given as offsets in the filter, from the instruction `at`. */
static struct sock_filter compare(uint32_t value, int at, int same, int other)
{
    return (struct sock_filter)BPF_JUMP(BPF_JMP | BPF_JEQ | BPF_K, value, same - at - 1, other - at - 1);
}

/* Catches opens for reading and writing, as programs open devices. The loader, which has no handler yet, only reads. */
static void add_open(struct sock_filter *filter, int at, int word)
{
    filter[at] = load_word(word);
    filter[at + 1] = (struct sock_filter)BPF_STMT(BPF_ALU | BPF_AND | BPF_K, O_ACCMODE | O_CREAT | PASS_FLAG);
    filter[at + 2] = compare(O_RDWR, at + 2, PASS, at + 3);
    filter[at + 3] = answer(SECCOMP_RET_ALLOW);
}

/* Compares the number of the system call first, so that the kernel can pass all other calls without running the
 * filter. */
static void build(struct sock_filter filter[LENGTH])
{
    filter[0] = load(offsetof(struct seccomp_data, arch));
    filter[1] = compare(MACHINE, 1, 2, IOCTL - 1);
    filter[2] = load(offsetof(struct seccomp_data, nr));
    filter[3] = compare(SYS_ioctl, 3, IOCTL, 4);
    filter[4] = compare(SYS_openat, 4, OPENAT, 5);
    filter[5] = compare(SYS_open, 5, OPEN, 6);
    filter[6] = answer(SECCOMP_RET_ALLOW);
    filter[IOCTL] = load_word(1);
    for (int i = 0, at = IOCTL + 1; i < COUNT; i++, at++)
        filter[at] = compare(CALLS[i], at, PASS, at + 1);
    filter[OPENAT - 1] = answer(SECCOMP_RET_ALLOW);
    add_open(filter, OPENAT, 2);
    add_open(filter, OPEN, 1);
    filter[PASS] = load_word(4);
    filter[PASS + 1] = compare(PASS_ONE, PASS + 1, PASS + 2, TRAP);
    filter[PASS + 2] = load_word(5);
    filter[PASS + 3] = compare(PASS_TWO, PASS + 3, PASS + 4, TRAP);
    filter[PASS + 4] = answer(SECCOMP_RET_ALLOW);
    filter[TRAP] = answer(SECCOMP_RET_TRAP);
}

static bool set_filter(void)
{
    struct sock_filter filter[LENGTH];
    struct sock_fprog program = { LENGTH, filter };

    build(filter);
    return prctl(PR_SET_NO_NEW_PRIVS, 1, 0, 0, 0) == 0 &&
           syscall(SYS_seccomp, SECCOMP_SET_MODE_FILTER, SECCOMP_FILTER_FLAG_TSYNC, &program) == 0;
}

/* A process that ran another program with this library before exec has the filter already, so its first call is
 * caught. */
void direct_begin(void)
{
    struct sigaction action = { .sa_flags = SA_SIGINFO | SA_NODEFER | SA_ONSTACK | SA_RESTART };
    sigset_t signals;

    if (!getenv(BIM_DIRECT))
        return;
    action.sa_sigaction = on_call;
    sigaction(SIGSYS, &action, NULL);
    sigemptyset(&signals);
    sigaddset(&signals, SIGSYS);
    pthread_sigmask(SIG_UNBLOCK, &signals, NULL);
    syscall(SYS_ioctl, -1, INC, NULL);
    if (!is_caught && !set_filter())
        loss_end("the kernel catches no system calls for --direct");
    is_on = true;
}
