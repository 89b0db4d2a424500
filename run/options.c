#include "options.h"

#include "say.h"

#include <bimphlai.h>
#include <getopt.h>
#include <stdio.h>
#include <stdlib.h>
#include <string.h>

static const char USAGE[] = "usage: bimphlai-run [OPTION ...] PROGRAM [ARGUMENT ...]\n";

static const char HELP[] =
    "\n"
    "Runs a program, and all that it starts, with GPU fences as Linux has them: sw_sync, sync files and the fences of\n"
    "dma-bufs. It needs no root, no kernel that has them, and no change of the program.\n"
    "\n"
    "  --local       no service: the fences of each process are its own; for programs of one process\n"
    "  --direct      also serves system calls that bypass the C library\n"
    "  --trace FILE  writes what happens to fences to FILE, for `fencectl trace`\n"
    "  --report      reports at the end what hangs and who waits, on standard error\n"
    "  --check       finds accesses of buffers that end while a fence is pending\n"
    "  --require     ends with 1 if a fence hangs, a rule was broken, or --check finds an access\n"
    "  --require-fences\n"
    "                ends with 1 if the program made no fence\n"
    "  --shuffle SEED\n"
    "                delays threads at moments that the number SEED decides, to find what relies on luck\n"
    "  --follow FILE [N]\n"
    "                has threads make their calls as schedule N of the plan FILE, or as the script FILE\n"
    "  --patience MS for --follow: how long a thread waits for its turn, by default 1500 ms\n"
    "  --plan FILE   writes the run as a plan to FILE, for `fencectl explore --predict`\n"
    "  --calls N     only its first N calls\n"
    "  --orders all|locks\n"
    "                keeps the orders of all locks, or lets the sections of a mutex come in any order\n"
    "  --predict     records a run as a plan, explores it, and follows each schedule that is found\n"
    "  --runs N      the same of N runs, of which all but the first are shuffled\n"
    "  --verbose     says where the service is, and what was left at the end\n"
    "  -h, --help, --version\n"
    "\n"
    "The status is the program's; with --follow and --predict 1 if what the plan says happens, 0 if it is harmless, and\n"
    "3 if the program didn't make the calls. It is 2 for options that don't fit, 123 if the service was lost, 124 if\n"
    "there is no plan, 125 if it can't start, 126 if the program can't be run with it, and 127 if there is no such\n"
    "program.\n";

enum word {
    LOCAL = 256,
    DIRECT,
    TRACE,
    REPORT,
    REQUIRE,
    REQUIRE_FENCES,
    CHECK,
    SHUFFLE,
    FOLLOW,
    PATIENCE,
    PLAN,
    CALLS,
    ORDERS,
    PREDICT,
    RUNS,
    VERBOSE,
    VERSION
};
enum { DIGITS = 19 }; /* fit into 64 bits */
enum { PATIENCE_MS = 1500 };

static const struct option WORDS[] = {
    { "local", no_argument, NULL, LOCAL },
    { "direct", no_argument, NULL, DIRECT },
    { "trace", required_argument, NULL, TRACE },
    { "report", no_argument, NULL, REPORT },
    { "require", no_argument, NULL, REQUIRE },
    { "require-fences", no_argument, NULL, REQUIRE_FENCES },
    { "check", no_argument, NULL, CHECK },
    { "shuffle", required_argument, NULL, SHUFFLE },
    { "follow", required_argument, NULL, FOLLOW },
    { "patience", required_argument, NULL, PATIENCE },
    { "plan", required_argument, NULL, PLAN },
    { "calls", required_argument, NULL, CALLS },
    { "orders", required_argument, NULL, ORDERS },
    { "predict", no_argument, NULL, PREDICT },
    { "runs", required_argument, NULL, RUNS },
    { "verbose", no_argument, NULL, VERBOSE },
    { "help", no_argument, NULL, 'h' },
    { "version", no_argument, NULL, VERSION },
    { NULL, 0, NULL, 0 },
};

static int tell_usage(void)
{
    fputs(USAGE, stderr);
    return STATUS_OPTIONS;
}

/* Returns the edit distance between two words, or FAR if the first is longer than any option may be. */
enum { LONGEST = 30, FAR = LONGEST + 1 };
static size_t distance(const char *word, const char *option)
{
    size_t row[LONGEST + 1], length = strlen(word);

    if (length > LONGEST)
        return FAR;
    for (size_t i = 0; i <= length; i++)
        row[i] = i;
    for (size_t j = 0; option[j]; j++) {
        size_t corner = row[0]++;

        for (size_t i = 0; i < length; i++) {
            size_t changed = corner + (word[i] != option[j]), shorter = row[i] < row[i + 1] ? row[i] : row[i + 1];

            corner = row[i + 1];
            row[i + 1] = changed <= shorter ? changed : shorter + 1;
        }
    }
    return row[length];
}

/* Says that a word is no option, and which option is at most two letters away. */
static int tell_unknown(const char *word)
{
    enum { NEAR = 2 };
    size_t least = NEAR + 1;
    const char *nearest = NULL, *name = word + strspn(word, "-");

    for (const struct option *option = WORDS; option->name; option++)
        if (distance(name, option->name) < least) {
            least = distance(name, option->name);
            nearest = option->name;
        }
    if (nearest)
        say("there is no option '%s'; did you mean '--%s'?", word, nearest);
    else
        say("there is no option '%s'", word);
    return tell_usage();
}

/* Prints a text. Returns the exit status: 125 if standard output can't be written. */
static int print(const char *text, const char *more)
{
    return fputs(text, stdout) < 0 || fputs(more, stdout) < 0 || fflush(stdout) ? 125 : 0;
}

/* Takes the name of a file. */
static int take_file(const char *option, const char **file)
{
    *file = optarg;
    if (*optarg && strcmp(optarg, "-") != 0)
        return -1;
    say("%s takes the name of a file, but '%s' is none", option, optarg);
    return tell_usage();
}

static bool is_number(const char *word)
{
    size_t length = strlen(word);

    return length > 0 && length <= DIGITS && strspn(word, "0123456789") == length;
}

/* Checks a number. */
static int take_number(const char *option)
{
    if (is_number(optarg))
        return -1;
    say("%s takes a number of at most %d digits, but '%s' is none", option, DIGITS, optarg);
    return tell_usage();
}

/* Takes how many there are to be. */
static int take_count(const char *option, unsigned long long *count)
{
    int status = take_number(option);

    *count = strtoull(optarg, NULL, 10);
    if (status >= 0 || *count > 0)
        return status;
    say("%s takes a number from 1 on", option);
    return tell_usage();
}

static int take_orders(struct options *options)
{
    options->excludes = strcmp(optarg, "locks") == 0;
    if (options->excludes || strcmp(optarg, "all") == 0)
        return -1;
    say("--orders takes 'all' or 'locks', but '%s' is neither", optarg);
    return tell_usage();
}

/* Takes the word behind the file too, if it is a number. */
static int take_schedule(struct options *options, char **words)
{
    options->schedule = optarg;
    options->finding = words[optind] && is_number(words[optind]) ? words[optind++] : NULL;
    return -1;
}

static int take_patience(struct options *options)
{
    options->patience = strtoull(optarg, NULL, 10);
    return take_number("--patience");
}

static int take(struct options *options, int word, char **words)
{
    switch (word) {
    case LOCAL: options->is_local = true; return -1;
    case DIRECT: options->is_direct = true; return -1;
    case TRACE: return take_file("--trace", &options->trace);
    case REPORT: options->reports = true; return -1;
    case REQUIRE: options->requires = true; return -1;
    case REQUIRE_FENCES: options->requires_fences = true; return -1;
    case CHECK: options->checks = true; return -1;
    case SHUFFLE: options->seed = optarg; return take_number("--shuffle");
    case FOLLOW: return take_schedule(options, words);
    case PATIENCE: return take_patience(options);
    case PLAN: return take_file("--plan", &options->plan);
    case CALLS: return take_count("--calls", &options->calls);
    case ORDERS: return take_orders(options);
    case PREDICT: options->predicts = true; return -1;
    case RUNS: return take_count("--runs", &options->runs);
    case VERBOSE: options->is_verbose = true; return -1;
    case 'h': return print(USAGE, HELP);
    case VERSION: return print("bimphlai-run " BIM_VERSION, "\n");
    case ':': say("%s takes a word behind it", words[optind - 1]); return tell_usage();
    default: return tell_unknown(words[optind - 1]);
    }
}

bool options_check(const struct options *options)
{
    return options->checks || options->schedule;
}

bool options_trace(const struct options *options)
{
    return options->reports || options->requires || options->requires_fences;
}

bool options_report(const struct options *options)
{
    return options_trace(options) || options_check(options) || options->plan;
}

/* Moves the words of an option to those that are kept, unless it is one of --predict itself. */
static void keep_words(struct options *options, int word, char **words, int from)
{
    for (int at = from; at < optind && word != PREDICT && word != RUNS; at++)
        options->kept[options->kept_count++] = words[at];
}

/* Returns -1, or 2 once standard error says which options don't fit together. */
static int check_together(const struct options *options)
{
    if (options->predicts && (options->plan || options->schedule))
        say("--predict records a plan and follows it by itself, without --plan and --follow");
    else if (options->runs && !options->predicts)
        say("--runs says of how many runs --predict makes plans");
    else if (options->runs && options->seed)
        say("--runs shuffles by itself, without --shuffle");
    else
        return -1;
    return tell_usage();
}

int options_read(struct options *options, int count, char **words)
{
    int word, from = optind, status = -1;

    *options = (struct options){ .patience = PATIENCE_MS, .kept = words + 1 };
    while (status < 0 && (word = getopt_long(count, words, "+:h", WORDS, NULL)) >= 0) {
        status = take(options, word, words);
        keep_words(options, word, words, from);
        from = optind;
    }
    options->program = words + optind;
    if (status < 0)
        status = check_together(options);
    return status < 0 && !options->program[0] ? tell_usage() : status;
}
