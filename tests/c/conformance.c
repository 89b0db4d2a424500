/* Runs scripts of conformance/ on a device, and compares its answers with the answers of a real kernel, which are the
 * notes `#= TEXT` after each command.
 *
 * A table maps names to numbers. A command for which a device has no call is composed of calls that it has:
 *
 * - the value of a timeline is found by two fences: one at the value has signalled, and one after it is pending;
 * - a watch is a merge of the watched file with itself, and fires when this new file is woken;
 * - `add` makes a fence, imports it and releases it;
 * - `show` exports the fences for which readers and writers have to wait, and tests the other two usages.
 *
 * A point is compared if the name of a file contains it: if the file has one fence and was given no name. The status of
 * a file is the kernel's: the status of the first fence that is pending or has an error. After a command that can't be
 * run, the rest of the script is left out.
 */
#include <bimphlai.h>

#include <inttypes.h>
#include <stdbool.h>
#include <stdio.h>
#include <stdlib.h>
#include <string.h>

enum {
    SCRIPT_BYTES = 1 << 20,
    SCRIPT_LINES = 1 << 14,
    WORDS = 6,
    EXPECTED = 64,
    NAMES = 1 << 12,
    ROWS = EXPECTED,
    NAME_IN_FULL = 3 * BIM_NAME_ROOM,
    WOKEN = 1 << 12
};

/* How much of an answer was compared. */
enum outcome {
    WHOLE,
    POINTS,
    STATUS,
    USAGES,
    COOKIE,
    NAME,
    CALL,
    REST,
    OUTCOMES
};

enum measure { COMPARED, IN_PART, LEFT_OUT };

static const struct {
    const char *what;
    enum measure measure;
} outcomes[OUTCOMES] = {
    [WHOLE] = { "whole", COMPARED },
    [POINTS] = { "but for points, which a device doesn't report", IN_PART },
    [STATUS] = { "but for points, and with the status that the kernel itself has", IN_PART },
    [USAGES] = { "but for points and for the rows of bookkeep, which nothing exports", IN_PART },
    [COOKIE] = { "a device has no cookies", LEFT_OUT },
    [NAME] = { "a device has no names, and no limits", LEFT_OUT },
    [CALL] = { "a device has no such call", LEFT_OUT },
    [REST] = { "what can't be carried out, and the rest of the script", LEFT_OUT },
};

/* A command of a script, and the lines of its expected answer. */
struct command {
    const char *path;
    size_t line;
    char text[256];
    char *words[WORDS];
    size_t word_count;
    const char *wanted[EXPECTED];
    size_t wanted_count;
};

/* An expected fence of a file. */
struct row {
    char timeline[BIM_NAME_ROOM];
    char driver[BIM_DRIVER_ROOM];
    uint64_t point;
    int32_t status;
};

enum kind { TIMELINE, FILE_OF, BUFFER, WATCH };

/* The number of the device that a name of the script stands for. */
struct named {
    enum kind kind;
    char name[BIM_NAME_ROOM];
    uint64_t number;
    bool is_given; /* the device was given the name too */
};

static bim_device device = BIM_DEVICE_INIT;
static struct named names[NAMES];
static size_t name_count, timeline_count, differences;
static uint64_t last_number, requests;

static void stop(const char *why)
{
    fprintf(stderr, "conformance: %s\n", why);
    exit(2);
}

/* ---- Names ---- */

static struct named *find(enum kind kind, const char *name)
{
    for (size_t i = 0; i < name_count; i++)
        if (names[i].kind == kind && strcmp(names[i].name, name) == 0)
            return &names[i];
    return NULL;
}

/* Returns the number that a name stands for, or 0, which no object has. */
static uint64_t number_of(enum kind kind, const char *name)
{
    struct named *named = find(kind, name);

    return named ? named->number : 0;
}

static void enter(enum kind kind, const char *name, uint64_t number, bool is_given)
{
    if (name_count == NAMES)
        stop("too many names");
    struct named *named = &names[name_count++];
    named->kind = kind;
    snprintf(named->name, sizeof named->name, "%s", name);
    named->number = number;
    named->is_given = is_given;
}

static void forget(struct named *named)
{
    *named = names[--name_count];
}

/* ---- Comparisons ---- */

static void same_text(const struct command *c, const char *wanted, const char *came)
{
    if (strcmp(wanted, came) == 0)
        return;
    printf("%s:%zu: %s: expected \"%s\", came \"%s\"\n", c->path, c->line, c->text, wanted, came);
    differences++;
}

static void same(const struct command *c, const char *what, long long wanted, long long came)
{
    if (wanted == came)
        return;
    printf("%s:%zu: %s: %s: expected %lld, came %lld\n", c->path, c->line, c->text, what, wanted, came);
    differences++;
}

static const char *wanted_line(const struct command *c, size_t i)
{
    return i < c->wanted_count ? c->wanted[i] : "nothing";
}

/* Returns the number after `ok` of the answer. */
static uint64_t wanted_number(const struct command *c)
{
    const char *line = wanted_line(c, 0);

    return strncmp(line, "ok ", 3) == 0 ? strtoull(line + 3, NULL, 10) : UINT64_MAX;
}

/* Compares a refusal with the refusal of the answer. Returns whether the call was accepted. */
static bool is_accepted(const struct command *c, int refusal)
{
    static const struct {
        const char *line;
        int refusal;
    } refusals[] = {
        { "err 2 NoEntry", BIM_ENOENT },
        { "err 4 Overflow", BIM_EOVERFLOW },
        { "err 15 Cancelled", BIM_ENOENT }, /* a closed timeline no longer exists */
    };
    int wanted = 0;

    for (size_t i = 0; i < sizeof refusals / sizeof refusals[0]; i++)
        if (strcmp(wanted_line(c, 0), refusals[i].line) == 0)
            wanted = refusals[i].refusal;
    same(c, "errno", wanted, refusal);
    return refusal == 0;
}

/* Expects that numbers rise. */
static void compare_number(const struct command *c, uint64_t number)
{
    same(c, "a number above all others", 1, number > last_number);
    last_number = number;
}

/* Compares the answer of a call that creates a file, and gives the file the name in the second word. */
static void compare_made(const struct command *c, int refusal, uint64_t file, bool is_given)
{
    if (!is_accepted(c, refusal))
        return;
    compare_number(c, file);
    enter(FILE_OF, c->words[1], file, is_given);
}

/* Returns whether a new fence at a point has signalled; -1 if it can't be made. */
static int is_reached(uint64_t timeline, uint64_t point)
{
    int32_t signalled;

    if (bim_device_fence(&device, timeline, (uint32_t)point, requests, &last_number) != 0)
        return -1;
    if (bim_device_is_signalled(&device, last_number, &signalled) != 0)
        return -1;
    return bim_device_release(&device, last_number, requests) == 0 ? signalled : -1;
}

static void compare_value(const struct command *c, uint64_t timeline)
{
    same(c, "whether the value is reached", 1, is_reached(timeline, wanted_number(c)));
    same(c, "whether what follows it is", 0, is_reached(timeline, wanted_number(c) + 1));
}

static struct named *watch_of(uint64_t file)
{
    for (size_t i = 0; i < name_count; i++)
        if (names[i].kind == WATCH && names[i].number == file)
            return &names[i];
    return NULL;
}

/* Compares the woken watches with the lines after the first. A watch that fires is removed. */
static void compare_fired(const struct command *c)
{
    uint64_t woken[WOKEN];
    char line[64];
    size_t count = bim_device_take_woken(&device, woken, WOKEN), fired = 1;

    for (size_t i = 0; i < count; i++) {
        struct named *watch = watch_of(woken[i]);
        int32_t signalled = 0;
        same(c, "errno of a woken file", 0, bim_device_is_signalled(&device, woken[i], &signalled));
        same(c, "whether it is signalled", 1, signalled);
        if (!watch)
            continue;
        snprintf(line, sizeof line, "fired %s", watch->name);
        same_text(c, wanted_line(c, fired++), line);
        same(c, "the release of a watch", 0, bim_device_release(&device, watch->number, requests));
        forget(watch);
    }
    for (; fired < c->wanted_count; fired++)
        same_text(c, c->wanted[fired], "nothing");
}

/* Returns the status that the kernel reports for a file. */
static int32_t kernel_status(const struct row *rows, size_t count)
{
    for (size_t i = 0; i < count; i++)
        if (rows[i].status != BIM_IS_SIGNALLED)
            return rows[i].status;
    return BIM_IS_SIGNALLED;
}

/* Writes the name that the kernel gives a file with these fences, cut as the kernel cuts it. */
static void write_name(char name[NAME_IN_FULL], uint64_t file, const struct row *rows, size_t count)
{
    if (count > 1)
        snprintf(name, NAME_IN_FULL, "dma_fence_array-unbound%" PRIu64 "-1", file);
    else
        snprintf(name, NAME_IN_FULL, "%s-%s%" PRIu64 "-%" PRIu64, rows[0].driver, rows[0].timeline,
                 number_of(TIMELINE, rows[0].timeline), rows[0].point);
    name[BIM_NAME_ROOM - 1] = '\0';
}

static void compare_row(const struct command *c, const struct row *wanted, const bim_device_fence_info *came)
{
    same_text(c, wanted->timeline, came->timeline);
    same_text(c, wanted->driver, came->driver);
    same(c, "the status of a fence", wanted->status, came->status);
    same(c, "whether a fence has a time", wanted->status != BIM_IS_ACTIVE, came->at != 0);
}

/* Compares the information of a file with the rows. The expected name is `given`, or the kernel's if that is NULL. */
static enum outcome compare_file(const struct command *c, uint64_t file, const char *given, const struct row *rows,
                                 size_t count)
{
    bim_device_file_info info;
    bim_device_fence_info fences[ROWS];
    char name[NAME_IN_FULL];
    int32_t status = -1;

    if (!is_accepted(c, bim_device_info(&device, file, &info, fences, ROWS)))
        return WHOLE;
    same(c, "the number of fences", (long long)count, (long long)info.fences);
    for (size_t i = 0; i < count && i < info.fences; i++)
        compare_row(c, &rows[i], &fences[i]);
    same(c, "the status", kernel_status(rows, count), info.status);
    same(c, "errno of the status", 0, bim_device_status(&device, file, &status));
    same(c, "the status alone", info.status, status);
    write_name(name, file, rows, count);
    same_text(c, given ? given : name, info.name);
    return count > 1 || (given && rows[0].point) ? POINTS : WHOLE;
}

/* ---- Commands ---- */

/* Reads a word as a 32-bit number. */
static bool read_u32(const char *word, uint32_t *number)
{
    char *end;
    unsigned long long read = strtoull(word, &end, 10);

    *number = (uint32_t)read;
    return *end == '\0' && read <= UINT32_MAX;
}

static uint32_t flags_of(const char *word)
{
    if (strcmp(word, "read") == 0)
        return BIM_SYNC_READ;
    return strcmp(word, "write") == 0 ? BIM_SYNC_WRITE : BIM_SYNC_RW;
}

static const char *const usages[] = {
    [BIM_KERNEL] = "kernel", [BIM_WRITE] = "write", [BIM_READ] = "read", [BIM_BOOKKEEP] = "bookkeep"
};

static int usage_of(const char *word)
{
    int usage = BIM_KERNEL;

    while (usage < BIM_BOOKKEEP && strcmp(word, usages[usage]) != 0)
        usage++;
    return usage;
}

/* timeline T. Contexts are counted up, as the numbers are. */
static enum outcome timeline(const struct command *c)
{
    uint64_t number;

    if (!is_accepted(c, bim_device_timeline(&device, c->words[1], &number)))
        return WHOLE;
    compare_number(c, number);
    same(c, "the context", (long long)wanted_number(c), (long long)++timeline_count);
    enter(TIMELINE, c->words[1], number, true);
    return WHOLE;
}

/* inc T N */
static enum outcome inc(const struct command *c)
{
    uint64_t number = number_of(TIMELINE, c->words[1]);
    bim_device_raised raised;
    uint32_t n;

    if (!read_u32(c->words[2], &n))
        return REST;
    if (is_accepted(c, bim_device_inc(&device, number, n, requests, &raised))) {
        compare_fired(c);
        compare_value(c, number);
    }
    return WHOLE;
}

/* value T: an increment of 0 is refused if there is no value. */
static enum outcome value(const struct command *c)
{
    uint64_t number = number_of(TIMELINE, c->words[1]);
    bim_device_raised raised;

    if (is_accepted(c, bim_device_inc(&device, number, 0, requests, &raised)))
        compare_value(c, number);
    return WHOLE;
}

/* shut T: the last close of a timeline. The value is read before. */
static enum outcome shut(const struct command *c)
{
    uint64_t number = number_of(TIMELINE, c->words[1]);

    if (strncmp(wanted_line(c, 0), "ok ", 3) == 0)
        compare_value(c, number);
    if (is_accepted(c, bim_device_release(&device, number, requests)))
        compare_fired(c);
    return WHOLE;
}

/* fence F T P */
static enum outcome fence(const struct command *c)
{
    uint64_t file = 0;
    uint32_t point;

    if (!read_u32(c->words[3], &point))
        return REST;
    int refusal = bim_device_fence(&device, number_of(TIMELINE, c->words[2]), point, requests, &file);
    compare_made(c, refusal, file, false);
    return WHOLE;
}

/* merge F A B */
static enum outcome merge(const struct command *c)
{
    uint64_t file = 0, a = number_of(FILE_OF, c->words[2]), b = number_of(FILE_OF, c->words[3]);

    int refusal = bim_device_merge(&device, a, b, c->words[1], &file);

    compare_made(c, refusal, file, true);
    return WHOLE;
}

/* close F */
static enum outcome close_file(const struct command *c)
{
    if (is_accepted(c, bim_device_release(&device, number_of(FILE_OF, c->words[1]), requests)))
        forget(find(FILE_OF, c->words[1]));
    return WHOLE;
}

/* wait F */
static enum outcome wait_once(const struct command *c)
{
    bool is_late = strcmp(wanted_line(c, 0), "err 8 TimedOut") == 0;
    int32_t signalled;

    if (is_accepted(c, bim_device_is_signalled(&device, number_of(FILE_OF, c->words[1]), &signalled)))
        same(c, "whether it is signalled", !is_late, signalled);
    return WHOLE;
}

/* info F: the first line has the script's status, and the rows follow. */
static enum outcome info(const struct command *c)
{
    struct named *file = find(FILE_OF, c->words[1]);
    struct row rows[ROWS] = { { "", "", 0, 0 } };
    size_t count = 0;
    int status = BIM_IS_SIGNALLED;

    sscanf(wanted_line(c, 0), "ok %*s %d", &status);
    for (; count + 1 < c->wanted_count; count++) {
        struct row *row = &rows[count];
        if (sscanf(c->wanted[count + 1], "fence %31s %7s %" SCNu64 " %" SCNd32, row->timeline, row->driver,
                   &row->point, &row->status) != 4)
            stop("a row of info is no fence");
    }
    const char *given = file && file->is_given ? file->name : NULL;
    enum outcome outcome = compare_file(c, file ? file->number : 0, given, rows, count);
    return status == kernel_status(rows, count) ? outcome : STATUS;
}

/* buffer B */
static enum outcome buffer(const struct command *c)
{
    uint64_t number;

    if (!is_accepted(c, bim_device_buffer(&device, requests, &number)))
        return WHOLE;
    compare_number(c, number);
    enter(BUFFER, c->words[1], number, true);
    return WHOLE;
}

/* add B T P U, for usages that an import can have. */
static enum outcome add(const struct command *c)
{
    int usage = usage_of(c->words[4]);
    uint64_t buffer = number_of(BUFFER, c->words[1]);
    uint32_t point;

    if ((usage != BIM_WRITE && usage != BIM_READ) || !read_u32(c->words[3], &point))
        return REST;
    int refusal = bim_device_fence(&device, number_of(TIMELINE, c->words[2]), point, requests, &last_number);
    if (refusal == 0) {
        refusal = bim_device_import(&device, buffer, last_number, flags_of(c->words[4]));
        same(c, "the release of what was imported", 0, bim_device_release(&device, last_number, requests));
    }
    is_accepted(c, refusal);
    return WHOLE;
}

/* import B F FLAGS. An import of no file is invalid. */
static enum outcome import(const struct command *c)
{
    uint64_t file = number_of(FILE_OF, c->words[2]);
    int refusal = bim_device_import(&device, number_of(BUFFER, c->words[1]), file, flags_of(c->words[3]));

    is_accepted(c, file == 0 && refusal == BIM_EINVAL ? BIM_ENOENT : refusal);
    return WHOLE;
}

/* export F B FLAGS */
static enum outcome export(const struct command *c)
{
    uint64_t file = 0;
    int refusal = bim_device_export(&device, number_of(BUFFER, c->words[2]), flags_of(c->words[3]), &file);

    compare_made(c, refusal, file, false);
    return WHOLE;
}

/* test B U */
static enum outcome test(const struct command *c)
{
    int32_t signalled;

    if (is_accepted(c, bim_device_test(&device, number_of(BUFFER, c->words[1]), usage_of(c->words[2]), &signalled)))
        same(c, "whether it is signalled", (long long)wanted_number(c), signalled);
    return WHOLE;
}

/* Stores the rows of show at a usage, none of them reached, or the stub's row if there are none. Returns how many it
 * stores. */
static size_t rows_at(const struct command *c, int usage, struct row rows[ROWS])
{
    size_t count = 0;
    char word[16];

    rows[0] = (struct row){ "stub", "stub", 0, BIM_IS_SIGNALLED };
    for (size_t i = 1; i < c->wanted_count; i++) {
        struct row row = { "", "sw_sync", 0, BIM_IS_ACTIVE };
        if (sscanf(c->wanted[i], "%15s %31s %" SCNu64, word, row.timeline, &row.point) != 3)
            stop("a row of show is no fence");
        if (usage_of(word) == usage)
            rows[count++] = row;
    }
    return count;
}

/* Compares the fences for which an access to a buffer would wait with the rows of show at the access's usage. */
static void compare_access(const struct command *c, uint64_t buffer, uint32_t flags, int usage)
{
    struct row rows[ROWS];
    size_t count = rows_at(c, usage, rows);
    uint64_t file;
    int refusal = bim_device_export(&device, buffer, flags, &file);

    same(c, "errno of an export", 0, refusal);
    if (refusal != 0)
        return;
    compare_number(c, file);
    compare_file(c, file, NULL, rows, count ? count : 1);
    same(c, "the release of an export", 0, bim_device_release(&device, file, requests));
}

/* show B */
static enum outcome show(const struct command *c)
{
    uint64_t number = number_of(BUFFER, c->words[1]);
    struct row rows[ROWS];
    int32_t signalled;

    for (int usage = BIM_KERNEL; usage <= BIM_BOOKKEEP; usage++) {
        if (!is_accepted(c, bim_device_test(&device, number, usage, &signalled)))
            return WHOLE;
        same(c, usages[usage], rows_at(c, usage, rows) == 0, signalled);
    }
    compare_access(c, number, BIM_SYNC_READ, BIM_WRITE);
    compare_access(c, number, BIM_SYNC_WRITE, BIM_READ);
    return c->wanted_count > 1 ? USAGES : WHOLE;
}

/* watch F COOKIE */
static enum outcome watch(const struct command *c)
{
    uint64_t file = number_of(FILE_OF, c->words[1]);
    int32_t signalled;

    if (!is_accepted(c, bim_device_is_signalled(&device, file, &signalled)))
        return WHOLE;
    same_text(c, wanted_line(c, 0), signalled ? "err 7 Signalled" : "ok");
    if (signalled)
        return WHOLE;
    if (bim_device_merge(&device, file, file, "watch", &last_number) != 0)
        stop("no merge for a watch");
    enter(WATCH, c->words[2], last_number, true);
    return WHOLE;
}

/* unwatch COOKIE: the table knows whether the watch exists. */
static enum outcome unwatch(const struct command *c)
{
    struct named *watch = find(WATCH, c->words[1]);

    if (watch) {
        same(c, "the release of a watch", 0, bim_device_release(&device, watch->number, requests));
        forget(watch);
    }
    return COOKIE;
}

static enum outcome no_call(const struct command *c)
{
    (void)c;
    return CALL;
}

static const struct {
    const char *word;
    size_t operands;
    enum outcome (*carry_out)(const struct command *c);
} commands[] = {
    { "timeline", 1, timeline },
    { "inc", 2, inc },
    { "value", 1, value },
    { "shut", 1, shut },
    { "fence", 3, fence },
    { "merge", 3, merge },
    { "close", 1, close_file },
    { "wait", 1, wait_once },
    { "info", 1, info },
    { "buffer", 1, buffer },
    { "add", 4, add },
    { "import", 3, import },
    { "export", 3, export },
    { "test", 2, test },
    { "trim", 1, no_call },
    { "watch", 2, watch },
    { "unwatch", 1, unwatch },
    { "show", 1, show },
    { "report", 0, no_call },
};

static enum outcome carry_out(const struct command *c)
{
    const char *wanted = wanted_line(c, 0);

    if (strncmp(wanted, "err 3 ", 6) == 0 || strncmp(wanted, "err 6 ", 6) == 0)
        return NAME;
    for (size_t i = 0; i < sizeof commands / sizeof commands[0]; i++)
        if (strcmp(c->words[0], commands[i].word) == 0 && c->word_count == commands[i].operands + 1)
            return commands[i].carry_out(c);
    return REST;
}

/* ---- Scripts ---- */

/* Splits a script into NUL-terminated lines. Returns their number. */
static size_t read_lines(const char *path, char *bytes, char **lines)
{
    FILE *file = fopen(path, "r");
    size_t length, count = 0;

    if (!file) {
        perror(path);
        exit(2);
    }
    length = fread(bytes, 1, SCRIPT_BYTES - 1, file);
    fclose(file);
    bytes[length] = '\0';
    for (char *line = bytes; *line != '\0' && count < SCRIPT_LINES; count++) {
        char *end = strchr(line, '\n');
        lines[count] = line;
        line = end ? end + 1 : strchr(line, '\0');
        if (end)
            *end = '\0';
    }
    return count;
}

static bool is_expectation(const char *line)
{
    return strncmp(line, "#= ", 3) == 0;
}

static bool is_note(const char *line)
{
    line += strspn(line, " ");
    return *line == '#' || *line == '\0';
}

/* Splits a line into words. */
static void read_words(struct command *c, char *line)
{
    snprintf(c->text, sizeof c->text, "%s", line);
    c->word_count = 0;
    for (char *word = strtok(line, " "); word && c->word_count < WORDS; word = strtok(NULL, " "))
        c->words[c->word_count++] = word;
}

/* Takes the lines that are expected of the command above, up to the next command. Returns the index of that command. */
static size_t read_expected(struct command *c, char **lines, size_t at, size_t count)
{
    c->wanted_count = 0;
    for (; at < count && is_note(lines[at]); at++) {
        if (!is_expectation(lines[at]))
            continue;
        if (c->wanted_count == EXPECTED)
            stop("too many lines are expected of a command");
        c->wanted[c->wanted_count++] = lines[at] + 3;
    }
    return at;
}

/* Runs a script on a device of its own, and counts how much of each answer was compared. */
static void run_script(const char *path, size_t tally[OUTCOMES])
{
    static char bytes[SCRIPT_BYTES];
    static char *lines[SCRIPT_LINES];
    size_t count = read_lines(path, bytes, lines), at = 0;
    struct command c = { .path = path };
    enum outcome outcome = WHOLE;

    name_count = timeline_count = last_number = 0;
    if (bim_device_open(&device) != 0)
        stop("no device");
    while (at < count) {
        c.line = at + 1;
        if (is_note(lines[at++]))
            continue;
        read_words(&c, lines[at - 1]);
        at = read_expected(&c, lines, at, count);
        requests++;
        outcome = outcome == REST ? REST : carry_out(&c);
        tally[outcome]++;
    }
    bim_device_close(&device);
}

static size_t sum_of(const size_t tally[OUTCOMES], enum measure measure)
{
    size_t sum = 0;

    for (int i = 0; i < OUTCOMES; i++)
        if (outcomes[i].measure == measure)
            sum += tally[i];
    return sum;
}

/* Writes the counts of a script or of all scripts, and says what was not fully compared, and why. */
static void write_counts(const char *name, const size_t tally[OUTCOMES])
{
    printf("%s: compared %zu, in part %zu, left out %zu\n", name, sum_of(tally, COMPARED), sum_of(tally, IN_PART),
           sum_of(tally, LEFT_OUT));
    for (int i = WHOLE + 1; i < OUTCOMES; i++)
        if (tally[i])
            printf("    %zu %s\n", tally[i], outcomes[i].what);
}

int main(int count, char **paths)
{
    size_t total[OUTCOMES] = { 0 };

    for (int i = 1; i < count; i++) {
        size_t tally[OUTCOMES] = { 0 };
        run_script(paths[i], tally);
        write_counts(paths[i], tally);
        for (int j = 0; j < OUTCOMES; j++)
            total[j] += tally[j];
    }
    write_counts("all", total);
    printf("differences: %zu\n", differences);
    return differences != 0;
}
