#define _GNU_SOURCE
#include "recorder.h"

#include "calls.h"
#include "frames.h"
#include "shim.h"
#include "step.h"
#include "thread.h"

#include <errno.h>
#include <limits.h>
#include <link.h>
#include <stdatomic.h>
#include <stdlib.h>
#include <string.h>
#include <sys/prctl.h>

/* How many files of a process are known. */
enum { LOADED = 256 };

struct range {
    uintptr_t begin, end;
};

#define OF_THREAD static __thread __attribute__((tls_model("initial-exec")))
OF_THREAD uint32_t me; /* number of this thread in the log, or 0 */

static bool is_on;
static pid_t process;                /* whose memory this is */
static uint32_t memory;              /* its number in the log */
static struct range loaded[LOADED];  /* of what is in the log */
static _Atomic int loaded_count;
static atomic_flag looks = ATOMIC_FLAG_INIT;

static bool is_in(const struct range *range, uintptr_t address)
{
    return range->begin <= address && address < range->end;
}

/* Adds a path to the log, in pieces. */
static void add_path(uint64_t base, const char *path)
{
    size_t length = strlen(path);

    for (size_t at = 0; at < length; at += LOG_TEXT) {
        struct log_record record = { .thread = me, .kind = LOG_LOADED, .call = at, .result = length, .base = base };

        memcpy(record.text, path + at, length - at < LOG_TEXT ? length - at : LOG_TEXT);
        log_add(&record);
    }
}

static struct range range_of(const struct dl_phdr_info *file)
{
    struct range range = { UINTPTR_MAX, 0 };

    for (int i = 0; i < file->dlpi_phnum; i++) {
        const ElfW(Phdr) *part = &file->dlpi_phdr[i];
        uintptr_t begin = file->dlpi_addr + part->p_vaddr, end = begin + part->p_memsz;

        if (part->p_type != PT_LOAD)
            continue;
        range.begin = begin < range.begin ? begin : range.begin;
        range.end = end > range.end ? end : range.end;
    }
    return range;
}

static bool is_known(uintptr_t address)
{
    int count = atomic_load_explicit(&loaded_count, memory_order_acquire);

    for (int i = 0; i < count; i++)
        if (is_in(&loaded[i], address))
            return true;
    return false;
}

static int look_at(struct dl_phdr_info *file, size_t size, void *none)
{
    struct range range = range_of(file);
    char program[PATH_MAX];
    const char *path = file->dlpi_name;
    int count = loaded_count;

    (void)size, (void)none;
    if (is_known(range.begin) || count == LOADED)
        return 0;
    if (!path || !*path) {
        ssize_t length = count ? -1 : readlink("/proc/self/exe", program, sizeof program - 1);

        program[length < 0 ? 0 : length] = 0;
        path = program;
    }
    loaded[count] = range;
    add_path(file->dlpi_addr, path);
    atomic_store_explicit(&loaded_count, count + 1, memory_order_release);
    return 0;
}

/* Adds what was loaded since the last look, unless another thread does so. */
static void look_at_all(void)
{
    if (atomic_flag_test_and_set(&looks))
        return;
    dl_iterate_phdr(look_at, NULL);
    atomic_flag_clear(&looks);
}

static void add_text(enum log_kind kind, const char *text)
{
    struct log_record record = { .time = log_now(), .thread = me, .kind = kind, .call = memory, .result = getpid() };

    strncpy(record.text, text, LOG_TEXT - 1);
    log_add(&record);
}

static void add_routine(const void *routine)
{
    struct log_record record = { .thread = me, .kind = LOG_ROUTINE, .frames = { (uintptr_t)routine } };

    if (routine)
        log_add(&record);
}

/* Begins a process: after an exec, or in a child, which may not have all that its parent has recorded of its memory. */
static void begin_memory(void)
{
    process = getpid();
    memory = atomic_fetch_add(&log_opened()->processes, 1) + 1;
    loaded_count = 0;
    atomic_flag_clear(&looks);
}

/* Gives this thread a number. A thread without a name was made by a system call. */
static void begin_thread(const char *name, const void *routine)
{
    char task[LOG_TEXT] = "";

    if (process != getpid())
        begin_memory();
    me = atomic_fetch_add(&log_opened()->threads, 1) + 1;
    prctl(PR_GET_NAME, task);
    add_text(LOG_THREAD, name);
    add_text(LOG_TASK, task);
    if (!loaded_count)
        look_at_all();
    add_routine(routine);
}

static uint32_t number_of_thread(void)
{
    if (!me)
        begin_thread(thread_name(), NULL);
    return me;
}

/* What was loaded since is seen with the first frame in it. */
static void add_frames(struct log_record *record)
{
    if (frames_find(record->frames))
        return;
    for (int i = 0; i < LOG_FRAMES && record->frames[i]; i++)
        if (!is_known(record->frames[i]))
            look_at_all();
}

static enum log_kind kind_of(const struct step *step)
{
    static const enum log_kind KINDS[] = {
        [STEP_TIMELINE] = LOG_TIMELINE, [STEP_BUFFER] = LOG_BUFFER, [STEP_FENCE] = LOG_FENCE,   [STEP_MERGE] = LOG_MERGE,
        [STEP_EXPORT] = LOG_EXPORT,     [STEP_IMPORT] = LOG_IMPORT, [STEP_INC] = LOG_INC,       [STEP_WAIT] = LOG_WAIT,
        [STEP_INFO] = LOG_INFO,         [STEP_TEST] = LOG_END,      [STEP_SHUT] = LOG_CLOSE,
    };

    /* A poll of a buffer has the access for which it found the buffer ready. */
    return step->kind == STEP_WAIT && step->value ? LOG_READY : KINDS[step->kind];
}

static void set_objects(struct log_record *record, const struct step *step)
{
    const uint64_t used[] = { step->made, step->of, step->with };

    memcpy(record->object, step->made ? used : used + 1, (step->made ? 3 : 2) * sizeof used[0]);
}

/* A poll's other files have the same number. */
static void add_more(struct log_record *record, const struct step *step)
{
    for (uint32_t i = 0; i < step->more_count; i++) {
        record->kind = step->more[i].value ? LOG_READY : LOG_WAIT;
        record->flags = step->more[i].value;
        record->object[0] = step->more[i].of;
        log_add(record);
    }
}

static void take_step(const struct step *step, uint32_t number)
{
    struct log_record record = { .call = number, .kind = kind_of(step), .result = step->status };
    int before = errno;

    record.thread = number_of_thread();
    record.flags = step->is_second ? 1 : step->value;
    record.time = step->answer ? step->answer->at : log_now();
    record.value = step->kind == STEP_FENCE && step->answer ? step->answer->point : step->value;
    if (step->kind == STEP_INFO && step->answer)
        record.value = step->answer->fences;
    set_objects(&record, step);
    if (!number || step->error) {
        record.kind = step->error ? LOG_FAILED : LOG_AGAIN;
        record.result = step->error;
    } else {
        if (!step->is_second)
            atomic_fetch_add(&log_opened()->calls, 1);
        add_frames(&record);
    }
    log_add(&record);
    add_more(&record, step);
    errno = before;
}

static void take_fact(const struct thread_fact *fact)
{
    int before = errno;

    switch (fact->event) {
    case THREAD_MAKES: number_of_thread(), add_text(LOG_CREATE, fact->name); break;
    case THREAD_BEGINS: begin_thread(fact->name, fact->routine); break;
    case THREAD_JOINS: number_of_thread(), add_text(LOG_JOIN, fact->name); break;
    case THREAD_REAPS:
        log_add(&(struct log_record){ .time = log_now(), .thread = number_of_thread(), .kind = LOG_REAP, .result = fact->process });
        break;
    default: break;
    }
    errno = before;
}

void recorder_begin(void)
{
    const char *path = getenv(BIM_PLAN);

    if (!path || log_open(path))
        return;
    is_on = true;
    frames_begin();
    step_listen(take_step);
    thread_listen(take_fact);
}

bool recorder_is_on(void)
{
    return is_on;
}

static void add_order(enum log_kind kind, enum log_order order, uint64_t object, uint32_t number)
{
    int before = errno;
    struct log_record record = {
        .time = log_now(), .thread = number_of_thread(), .kind = kind, .flags = order, .call = number
    };

    record.object[0] = object;
    log_add(&record);
    errno = before;
}

void recorder_release(enum log_order kind, uint64_t object)
{
    if (is_on)
        add_order(LOG_RELEASE, kind, object, 0);
}

void recorder_acquire(enum log_order kind, uint64_t object, uint32_t number)
{
    if (is_on)
        add_order(LOG_ACQUIRE, kind, object, number);
}

/* Adds an order by a program's own pipe or socket. */
static void add_order_of_file(enum log_kind kind, int file)
{
    int before = errno;
    struct stat found;

    if (call_fstat(file, &found) == 0 && !(found.st_mode & S_ISVTX)) {
        if (S_ISFIFO(found.st_mode))
            add_order(kind, LOG_PIPE, found.st_ino, 0);
        else if (S_ISSOCK(found.st_mode))
            add_order(kind, LOG_SOCKET, found.st_ino, 0);
    }
    errno = before;
}

void recorder_send(int file)
{
    if (is_on)
        add_order_of_file(LOG_RELEASE, file);
}

void recorder_receive(int file)
{
    if (is_on)
        add_order_of_file(LOG_ACQUIRE, file);
}

void recorder_pair(const int files[2])
{
    struct log_record record = { .kind = LOG_PAIR };
    struct stat a, b;

    if (!is_on || call_fstat(files[0], &a) || call_fstat(files[1], &b))
        return;
    record.time = log_now();
    record.thread = number_of_thread();
    record.object[0] = a.st_ino;
    record.object[1] = b.st_ino;
    log_add(&record);
}

void recorder_lack(enum log_lack what)
{
    if (is_on)
        log_add(&(struct log_record){ .time = log_now(), .thread = number_of_thread(), .kind = LOG_LACKS, .flags = what });
}
