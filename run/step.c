#define _GNU_SOURCE
#include "step.h"

#include "follow.h"
#include "shim.h"
#include "thread.h"

#include <errno.h>

static void (*listener)(const struct step *step, uint32_t number);

bool step_is_on(void)
{
    return thread_is_on();
}

void step_listen(void (*to)(const struct step *step, uint32_t number))
{
    listener = to;
}

void step_begin(enum step_kind kind)
{
    if (step_is_on())
        follow_await(thread_calls() + 1, kind, kind == STEP_WAIT || kind == STEP_INFO);
}

void step_begin_of_buffer(void)
{
    if (step_is_on())
        follow_await(thread_calls() + 1, STEP_WAIT, false);
}

void step_continue(enum step_kind kind)
{
    if (step_is_on())
        follow_await(thread_calls(), kind, false);
}

/* Returns whether a call did or found something. */
static bool does(const struct step *step)
{
    bool asks = step->kind == STEP_WAIT || step->kind == STEP_INFO || step->kind == STEP_SHUT;

    return !step->error && (!asks || step->status != 0);
}

void step_end(const struct step *step)
{
    uint32_t number = 0;
    int before = errno;

    if (!step_is_on())
        return;
    if ((step->kind == STEP_WAIT || step->kind == STEP_INFO) && does(step) && !step->is_second)
        follow_await(thread_calls() + 1, step->kind, false);
    if (step->is_second)
        number = thread_calls();
    else if (does(step) || follow_counts(step, thread_calls() + 1))
        number = thread_count();
    if (listener)
        listener(step, number);
    if (number)
        follow_end(step, number);
    errno = before;
}

int step_ask(enum step_kind kind, struct bim_request *request, int passed, struct bim_answer *answer, int *given)
{
    struct step step = { .kind = kind, .of = request->a, .request = request };

    if (!step_is_on())
        return shim_ask(request, passed, answer, given);
    step_begin(kind);
    step.error = shim_ask(request, passed, answer, given);
    if (!step.error) {
        step.answer = answer;
        step.status = answer->status;
        if (given)
            shim_mark(*given, &step.made);
    }
    step.with = kind == STEP_MERGE || kind == STEP_IMPORT ? request->b : 0;
    step.value = kind == STEP_FENCE || kind == STEP_INC ? request->value : request->flags;
    step_end(&step);
    return step.error;
}

int step_ask_for_file(enum step_kind kind, struct bim_request *request)
{
    struct bim_answer answer;
    int given, error = step_ask(kind, request, -1, &answer, &given);

    return error ? shim_result(error) : given;
}
