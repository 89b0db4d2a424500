/* A debug console of a desk: answers each line of standard input, and then prints the cookies that it fired, so that
 * the output is what `fencectl` prints for these lines. */
#define _POSIX_C_SOURCE 200809L
#include <bimphlai.h>
#include <inttypes.h>
#include <stdio.h>
#include <stdlib.h>

/* The text of the last answer. */
struct text {
    char *bytes;
    size_t room;
};

static void make_room(struct text *text, size_t room)
{
    text->bytes = realloc(text->bytes, room);
    text->room = room;
    if (text->bytes == NULL) {
        fprintf(stderr, "no memory\n");
        exit(1);
    }
}

/* Answers a line. If the room is too small for a table, the call has changed nothing, and is repeated with more
 * room. */
static void answer(bim_desk *desk, const char *line, size_t line_length, struct text *text)
{
    size_t length = 0;

    bim_line(desk, line, line_length, text->bytes, text->room, &length);
    if (length >= text->room) {
        make_room(text, length + 1);
        bim_line(desk, line, line_length, text->bytes, text->room, &length);
    }
    fputs(text->bytes, stdout);
}

/* Prints the fired cookies. An emulator would resume the jobs that wait for them here. */
static void tell_fired(bim_desk *desk)
{
    uint64_t cookies[16];
    size_t count;

    while ((count = bim_take_fired(desk, cookies, 16)) > 0)
        for (size_t i = 0; i < count; i++)
            printf("fired %" PRIu64 "\n", cookies[i]);
}

int main(void)
{
    bim_desk desk = BIM_DESK_INIT;
    struct text text = { NULL, 0 };
    char *line = NULL;
    size_t line_room = 0;
    ssize_t line_length;

    if (bim_desk_open(&desk) != BIM_OK)
        return 1;
    make_room(&text, BIM_ANSWER_ROOM);
    while ((line_length = getline(&line, &line_room, stdin)) >= 0) {
        answer(&desk, line, (size_t)line_length, &text);
        tell_fired(&desk);
        fflush(stdout);
    }
    free(line);
    free(text.bytes);
    bim_desk_close(&desk);
    return 0;
}
