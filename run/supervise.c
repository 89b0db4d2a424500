#define _GNU_SOURCE
#include "supervise.h"

#include "calls.h"
#include "guard.h"
#include "launch.h"
#include "registry.h"
#include "report.h"
#include "say.h"
#include "service.h"
#include "trace.h"
#include "users.h"
#include "verdict.h"
#include "wire.h"

#include <errno.h>
#include <stdint.h>
#include <sys/prctl.h>
#include <sys/signalfd.h>
#include <sys/wait.h>

enum { MILLISECONDS_BETWEEN_STARTS = 100, MILLISECONDS_BETWEEN_LOOKS = 100 };

static struct service service = SERVICE_CLOSED;

/* The run: which of its processes have ended, and how. */
struct run {
    int signals;
    sigset_t mask;           /* the program's: bimphlai-run's own at its start */
    struct sigaction childs; /* the program's action for SIGCHLD */
    pid_t program;
    int waited, server_waited;
    bool program_has_ended, server_has_ended, lacks_guard;
    char said;             /* the last word of the server, or 0 */
    bool is_guarded;
    bool users_are_killed; /* by the guard, since the server is lost */
    bool looks;            /* whether the program hangs (--follow) */
};

/* All signals but faults' and the ones by which a terminal stops and continues a job. */
static void handled_signals(sigset_t *signals)
{
    static const int OTHERS[] = { SIGSEGV, SIGBUS,  SIGFPE,  SIGILL,  SIGTRAP, SIGSYS,
                                  SIGABRT, SIGTSTP, SIGTTIN, SIGTTOU, SIGCONT };

    sigfillset(signals);
    for (size_t i = 0; i < sizeof OTHERS / sizeof OTHERS[0]; i++)
        sigdelset(signals, OTHERS[i]);
}

/* Blocks the handled signals, so that they can be read. Resets SIGCHLD, since bimphlai-run would see no end if it was
 * started to ignore SIGCHLD. Returns 0 or an errno. */
static int block_signals(struct run *run)
{
    const struct sigaction usual = { .sa_handler = SIG_DFL };
    sigset_t signals;

    handled_signals(&signals);
    sigaction(SIGCHLD, &usual, &run->childs);
    sigprocmask(SIG_BLOCK, &signals, &run->mask);
    run->signals = signalfd(-1, &signals, SFD_CLOEXEC | SFD_NONBLOCK);
    return run->signals < 0 ? errno : 0;
}

/* Starts the program in the prepared environment. Returns 0 or an errno. */
static int start_program(struct run *run, char **program)
{
    if (service.shared)
        service.shared->program = (struct process){ 0, -1 };
    run->program = fork();
    if (run->program == 0) {
        /* bimphlai-run may be killed before it notes the program. */
        if (service.shared)
            service.shared->program.number = getpid();
        sigaction(SIGCHLD, &run->childs, NULL);
        sigprocmask(SIG_SETMASK, &run->mask, NULL);
        _exit(launch_become(program));
    }
    if (run->program < 0)
        return errno;
    if (service.shared)
        service.shared->program = process_open(run->program);
    return 0;
}

/* Reaps all processes that have ended, orphans of the program included. */
static void reap(struct run *run)
{
    pid_t ended;
    int waited;

    while ((ended = waitpid(-1, &waited, WNOHANG)) > 0) {
        if (ended == run->program) {
            run->program_has_ended = true;
            run->waited = waited;
        } else if (service.shared && ended == service.shared->server.number) {
            run->server_has_ended = true;
            run->server_waited = waited;
        } else if (service.shared && ended == service.shared->guard.number) {
            run->lacks_guard = true;
        }
    }
}

static void forward(const struct signalfd_siginfo *signal, pid_t program)
{
    const union sigval value = { .sival_ptr = (void *)(uintptr_t)signal->ssi_ptr };

    if (signal->ssi_code == SI_QUEUE)
        sigqueue(program, signal->ssi_signo, value);
    else
        kill(program, signal->ssi_signo);
}

/* Forwards signals from other processes to the program. The program gets the terminal's signals itself; and the kernel
 * sends SIGPIPE in our own name when a write finds no reader. */
static void take_signals(struct run *run)
{
    struct signalfd_siginfo signal;

    while (call_read(run->signals, &signal, sizeof signal) == sizeof signal)
        if (signal.ssi_signo != SIGCHLD && signal.ssi_code <= 0 && (pid_t)signal.ssi_pid != getpid() &&
            run->program > 0 && !run->program_has_ended)
            forward(&signal, run->program);
    reap(run);
}

static void take_words(struct run *run)
{
    char said;

    while (call_read(service.hears, &said, 1) == 1)
        switch (said) {
        case GUARD_IS_READY: run->is_guarded = true; break;
        case GUARD_HAS_KILLED: run->users_are_killed = true; break;
        default: run->said = said;
        }
}

/* Waits for signals and words. Restarts a guard that was killed, unless the run is over. */
static void wait_for_events(struct run *run)
{
    struct pollfd files[] = { { run->signals, POLLIN, 0 }, { service.hears, POLLIN, 0 } };

    call_poll(files, 2, run->lacks_guard ? MILLISECONDS_BETWEEN_STARTS : run->looks ? MILLISECONDS_BETWEEN_LOOKS : -1);
    take_signals(run);
    take_words(run);
    if (run->lacks_guard && !run->users_are_killed && !service.shared->has_ended)
        run->lacks_guard = guard_start(&service) != 0;
}

/* Kills a program that hangs, with all of its processes. */
static void end_hang(struct run *run)
{
    if (!run->looks || run->program_has_ended || !verdict_hangs())
        return;
    verdict_note_hang();
    run->looks = false;
    if (service.shared)
        users_kill(&service);
    else
        kill(run->program, SIGKILL);
}

static void wait_for_an_end(struct run *run)
{
    while (!run->program_has_ended && !run->server_has_ended) {
        wait_for_events(run);
        end_hang(run);
    }
}

/* Waits for a word of the server, and returns it, or 0 if the server is lost. */
static char hear(struct run *run)
{
    char said;

    while (!run->said && !run->server_has_ended)
        wait_for_events(run);
    said = run->said;
    run->said = 0;
    return said;
}

/* Waits until the guard has killed the processes of the run before it prints the reason, since standard error may
 * block. */
static int lose(struct run *run)
{
    while (!run->users_are_killed)
        wait_for_events(run);
    if (WIFSIGNALED(run->server_waited))
        say("the service ended, by signal %d; no fence was signalled, and the program was killed",
            WTERMSIG(run->server_waited));
    else
        say("the service ended, with status %d; no fence was signalled, and the program was killed",
            WEXITSTATUS(run->server_waited));
    return BIM_LOST;
}

static void tell_left(void)
{
    const struct statistics *statistics = &service.shared->statistics;

    say("left: %llu timelines, %llu files, %llu buffers, %zu descriptors; %llu requests",
        (unsigned long long)statistics->timelines, (unsigned long long)statistics->files,
        (unsigned long long)statistics->buffers, service_endpoints(&service), (unsigned long long)statistics->requests);
}

/* The server and the guard keep the service for the processes that still use it. */
static int leave(struct run *run)
{
    while (!run->server_has_ended || !(run->lacks_guard || run->users_are_killed))
        wait_for_events(run);
    service_remove(&service);
    return launch_status(run->waited);
}

static int serve_program(const struct options *options, struct run *run)
{
    char said;

    wait_for_an_end(run);
    if (!run->program_has_ended)
        return lose(run);
    service_end(&service);
    said = hear(run);
    if (!said)
        return lose(run);
    if (options->is_verbose)
        tell_left();
    return said == SERVER_STAYS ? launch_status(run->waited) : leave(run);
}

static int start_service(struct run *run, const struct options *options, const char *trace)
{
    int error = service_open(&service), status;

    if (error)
        return fault("no socket for the service", error);
    prctl(PR_SET_CHILD_SUBREAPER, 1);
    error = service_start(&service, trace);
    if (error)
        return fault("the service can't start", error);
    while (!run->is_guarded && !run->server_has_ended)
        wait_for_events(run);
    if (!hear(run))
        return STATUS_FAULT;
    status = launch_prepare(service.socket, trace);
    if (!status && options->is_verbose)
        say("service %d at %s", (int)service.shared->server.number, service.socket);
    return status;
}

/* Starts everything. Returns 0, or the exit status. */
static int start(struct run *run, const struct options *options, const char *trace)
{
    int error = block_signals(run), status;

    if (error)
        return fault("signals can't be read", error);
    status = options->is_local ? launch_prepare(BIM_LOCAL, trace) : start_service(run, options, trace);
    if (status)
        return status;
    error = start_program(run, options->program);
    return error ? fault("the program can't start", error) : 0;
}

/* Ends the service if the program can't be started. */
static void give_up(void)
{
    if (service.shared) {
        service.shared->has_ended = 1;
        process_kill(&service.shared->server);
    }
    service_remove(&service);
}

/* With --local the trace is the program's, which doesn't know its own end. */
static void end_trace(const char *path)
{
    struct trace *trace = path ? trace_open(path) : NULL;

    trace_end(trace, registry_now());
    trace_close(trace);
}

int supervise(const struct options *options, const char *trace)
{
    struct run run = { .looks = options->schedule };
    int status = start(&run, options, trace);

    if (status) {
        give_up();
        return status;
    }
    process_raise_limit();
    if (options->is_local) {
        wait_for_an_end(&run);
        end_trace(trace);
    }
    status = options->is_local ? launch_status(run.waited) : serve_program(options, &run);
    call_close(run.signals);
    return run.users_are_killed ? status : report(options, trace, status);
}
