#define _GNU_SOURCE
#include "shim.h"

#include "calls.h"
#include "check.h"
#include "direct.h"
#include "follow.h"
#include "loss.h"
#include "numbers.h"
#include "recorder.h"
#include "shuffle.h"
#include "thread.h"

#include <errno.h>
#include <limits.h>
#include <pthread.h>
#include <sched.h>
#include <stdio.h>
#include <stdlib.h>
#include <string.h>
#include <sys/mman.h>
#include <sys/prctl.h>
#if __has_include(<sys/single_threaded.h>)
#include <sys/single_threaded.h>
#endif

/* The state of a thread that enters a request. */
struct entry {
    bool is_alone, locks, blocks;
    int cancel; /* the thread's cancellation state */
    sigset_t mask;
    struct waiter waiter;
};

enum { UNBEGUN, BEGINNING, BEGUN };

static struct own *own, spare; /* `spare` if no page can be wiped */
static bool is_wiped;          /* the kernel wipes it in a child */
static char service[PATH_MAX];
static const struct way *way;
static bool is_traced;
static _Atomic bool has_handlers;
static _Atomic int stage;
static sigset_t mask; /* of the thread that forks */

#define OF_THREAD static __thread __attribute__((tls_model("initial-exec")))
OF_THREAD bool is_inside;
OF_THREAD bool forks; /* has the lock until it has forked, but handlers of other libraries may ask meanwhile */
OF_THREAD struct waiter forker;
OF_THREAD bool begins;

/* Blocks all signals but faults', which can't be deferred. */
static void block_signals(sigset_t *before)
{
    static const int FAULTS[] = { SIGSEGV, SIGBUS, SIGFPE, SIGILL, SIGTRAP, SIGSYS, SIGABRT };
    sigset_t signals;

    sigfillset(&signals);
    for (size_t i = 0; i < sizeof FAULTS / sizeof FAULTS[0]; i++)
        sigdelset(&signals, FAULTS[i]);
    pthread_sigmask(SIG_BLOCK, &signals, before);
}

/* Takes the lock for the fork, with signals blocked: a handler on this thread would deadlock on the lock. */
static void before_fork(void)
{
    sigset_t before;

    thread_before_fork();
    if (is_inside)
        return;
    block_signals(&before);
    lock_take(&own->lock, &forker);
    mask = before;
    forks = true;
}

static void after_fork(void)
{
    sigset_t before = mask;

    if (is_inside)
        return;
    forks = false;
    lock_give(&own->lock, &forker);
    pthread_sigmask(SIG_SETMASK, &before, NULL);
}

/* In the child, another library's handler may have asked before; then the child already has a connection of its own. */
static void in_child(void)
{
    if (!is_wiped)
        memset(own, 0, sizeof *own);
    if (!own->is_ready)
        way->leave();
    shuffle_fork();
    thread_in_child();
    if (!is_inside)
        pthread_sigmask(SIG_SETMASK, &mask, NULL);
    is_inside = forks = false;
}

static void make_own(void)
{
    void *page = mmap(NULL, sizeof *own, PROT_READ | PROT_WRITE, MAP_PRIVATE | MAP_ANONYMOUS, -1, 0);

    own = page == MAP_FAILED ? &spare : page;
    is_wiped = madvise(own, sizeof *own, MADV_WIPEONFORK) == 0;
    pthread_atfork(before_fork, after_fork, in_child);
}

/* The bounds of the section that NEXT fills. */
extern const struct next_call __start_bim_next[] __attribute__((visibility("hidden")));
extern const struct next_call __stop_bim_next[] __attribute__((visibility("hidden")));

static void look_up_calls(void)
{
    for (const struct next_call *call = __start_bim_next; call < __stop_bim_next; call++)
        if (!*call->at)
            *call->at = dlsym(RTLD_NEXT, call->name);
}

static void choose_way(void)
{
    const char *value = getenv(BIM_SERVICE);

    if (!value || !*value || strlen(value) >= sizeof service)
        return;
    strcpy(service, value);
    is_traced = getenv(BIM_TRACE) != NULL;
    make_own();
    shuffle_begin();
    check_begin();
    recorder_begin();
    thread_begin();
    follow_begin();
    way = strcmp(service, BIM_LOCAL) == 0 ? &LOCAL : &LINK;
}

/* Other libraries may call before this constructor runs, several threads at once, and so may the functions called here:
 * these find no service yet. */
__attribute__((constructor, cold)) static void begin(void)
{
    int none = UNBEGUN;

    if (begins)
        return;
    if (!atomic_compare_exchange_strong(&stage, &none, BEGINNING)) {
        while (stage == BEGINNING)
            sched_yield();
        return;
    }
    begins = true;
    look_up_calls();
    loss_begin();
    choose_way();
    stage = BEGUN;
    begins = false;
    if (way)
        direct_begin();
}

bool shim_is_on(void)
{
    if (stage != BEGUN)
        begin();
    return way != NULL;
}

const char *shim_service(void)
{
    return service;
}

static void set_who(struct bim_request *request)
{
    if (!is_traced)
        return;
    prctl(PR_GET_NAME, request->task);
    request->thread = syscall(SYS_gettid);
    request->processor = sched_getcpu();
}

/* A single thread needs no lock. */
static bool is_alone(void)
{
#if __has_include(<sys/single_threaded.h>)
    return __libc_single_threaded;
#else
    return false;
#endif
}

/* A child that was made without fork(3) has the parent's connection. */
static int prepare(void)
{
    int error;

    if (own->is_ready)
        return 0;
    way->leave();
    error = way->prepare(own);
    own->is_ready = !error;
    return error;
}

void shim_note_handler(void)
{
    has_handlers = true;
}

/* Takes the lock. As during a system call, the thread can't be cancelled, and no handler of the program runs, which
 * could ask too, fork, or never return. */
static void enter(struct entry *entry)
{
    entry->is_alone = is_alone();
    entry->locks = !entry->is_alone && !forks;
    entry->blocks = has_handlers;
    if (!entry->is_alone)
        pthread_setcancelstate(PTHREAD_CANCEL_DISABLE, &entry->cancel);
    if (entry->blocks)
        block_signals(&entry->mask);
    is_inside = true;
    if (entry->locks)
        lock_take(&own->lock, &entry->waiter);
}

static void leave(struct entry *entry)
{
    if (entry->locks)
        lock_give(&own->lock, &entry->waiter);
    is_inside = false;
    if (entry->blocks)
        pthread_sigmask(SIG_SETMASK, &entry->mask, NULL);
    if (!entry->is_alone)
        pthread_setcancelstate(entry->cancel, NULL);
}

/* Returns whether a request opens a descriptor that the program doesn't know of. If no number is left, the descriptor
 * gets one past the program's limit. */
static bool hides_file(const struct bim_request *request)
{
    return request->op == BIM_OP_MEMORY || request->op == BIM_OP_INFO;
}

static int ask_in_turn(const struct bim_request *request, int passed, struct bim_answer *answer, int *given)
{
    struct rlimit limit;
    int error = way->ask(request, passed, answer, given);

    if (error != EMFILE || !hides_file(request))
        return error;
    if (numbers_borrow(&limit)) {
        error = way->ask(request, passed, answer, given);
        numbers_return(&limit);
    }
    return error == EMFILE ? ENOMEM : error;
}

int shim_ask(struct bim_request *request, int passed, struct bim_answer *answer, int *given)
{
    struct entry entry;
    int none, error;

    given = given ? given : &none;
    *given = -1;
    /* A signal handler can't wait for the thread that it interrupted. */
    if (is_inside)
        return way->ask_apart(request, passed, answer, given);
    shuffle_pause();
    enter(&entry);
    error = prepare();
    if (!error) {
        set_who(request);
        error = ask_in_turn(request, passed, answer, given);
    }
    leave(&entry);
    shuffle_pause();
    /* A process that can't reach the service, as after chroot, may still close its descriptors. */
    if (error == ENOTCONN && request->op != BIM_OP_GONE)
        loss_end("the service can't be reached, since it has ended or its socket is out of reach");
    return error;
}

int shim_ask_for_file(struct bim_request *request)
{
    struct bim_answer answer;
    int given, error = shim_ask(request, -1, &answer, &given);

    if (!error)
        return given;
    errno = error;
    return -1;
}

bool shim_is_traced(void)
{
    return shim_is_on() && is_traced;
}

bool shim_is_local(void)
{
    return shim_is_on() && way == &LOCAL;
}

bool shim_has_buffers(void)
{
    return shim_is_on() && (!way->page() || atomic_load_explicit(&way->page()->buffers, memory_order_relaxed));
}

bool shim_is_buffer(int file, uint64_t *inode)
{
    return shim_has_buffers() && shim_mark(file, inode) == BIM_BUFFER_MARK;
}

bool shim_is_device(int file)
{
    uint64_t inode;
    enum bim_mark mark = shim_mark(file, &inode);

    return mark == BIM_HEAP_MARK || mark == BIM_UDMABUF_MARK;
}

int shim_memory(int file, uint32_t part, struct bim_answer *buffer, int *memory)
{
    struct bim_request request = { .op = BIM_OP_MEMORY, .value = part };

    return shim_is_buffer(file, &request.a) ? shim_ask(&request, -1, buffer, memory) : ENODEV;
}

/* A local service doesn't notice closings by itself, and knows only the objects that it made. */
bool shim_hears_closing(bool of_timeline)
{
    return way->sees_closings ? of_timeline || is_traced : own->is_ready;
}

void shim_before_wait(void)
{
    struct entry entry;

    if (!shim_is_on() || !way->before_wait || is_inside || !own->is_ready)
        return;
    enter(&entry);
    way->before_wait();
    leave(&entry);
}

bool shim_wait(int file, bool is_begin)
{
    struct bim_request request = { .op = BIM_OP_WAIT, .value = is_begin };
    struct bim_answer answer;

    if (shim_mark(file, &request.a) != BIM_FILE_MARK)
        return false;
    return shim_ask(&request, -1, &answer, NULL) == 0 && answer.status == 1;
}

bool shim_recall(uint64_t inode, struct bim_answer *answer)
{
    return way->page() && page_get(way->page(), inode, answer);
}

bool shim_is_own(int file)
{
    return shim_is_on() && way->is_own(file);
}

int shim_above_own(void)
{
    return shim_is_on() ? way->above_own() : 0;
}

bool shim_lives(void)
{
    return shim_is_on() && way->lives && way->lives();
}

enum bim_mark shim_mark(int file, uint64_t *inode)
{
    return file >= 0 && shim_is_on() ? endpoint_mark(file, inode) : 0;
}

int shim_result(int error)
{
    if (!error)
        return 0;
    errno = error;
    return -1;
}
