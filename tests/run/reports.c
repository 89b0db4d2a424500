/* The kernel's reports of files: names, statuses, rows and times; and its text of all timelines. */
#include "kernel.h"
#include <pthread.h>
#include <stdlib.h>

static int is_name(const char *came, const char *wanted)
{
    if (!strcmp(came, wanted))
        return 1;
    printf("expected the name '%s', came '%s'\n", wanted, came);
    return 0;
}

/* Returns whether a name has the kernel's form: a driver, a timeline with the number of its context, and a point. */
static int is_of_form(const char *came, const char *before, const char *after)
{
    size_t length = strlen(before), digits = strspn(came + length, "0123456789");

    if (!strncmp(came, before, length) && digits > 0 && !strcmp(came + length + digits, after))
        return 1;
    printf("expected a name '%sN%s', came '%s'\n", before, after, came);
    return 0;
}

/* A timeline is named after the task that opens it, and keeps that name. */
static void names(void)
{
    struct report report;

    prctl(PR_SET_NAME, "a-task-whose-name-is-long");
    int t = timeline(), f = fence(t, 7);
    prctl(PR_SET_NAME, "other");
    int g = fence(t, 4000000000u), u = timeline(), h = fence(u, 1);

    EXPECT(ask(f, &report), 0);
    HOLDS(is_name(report.rows[0].obj_name, "a-task-whose-na"));
    HOLDS(is_name(report.rows[0].driver_name, "sw_sync"));
    HOLDS(is_of_form(report.file.name, "sw_sync-a-task-whose-na", "-7"));
    EXPECT(ask(g, &report), 0);
    HOLDS(is_name(report.rows[0].obj_name, "a-task-whose-na"));
    EXPECT(strlen(report.file.name) <= 31, 1);
    EXPECT(ask(h, &report), 0);
    HOLDS(is_name(report.rows[0].obj_name, "other"));
    HOLDS(is_of_form(report.file.name, "sw_sync-other", "-1"));
    inc(t, 7);
    EXPECT(ask(f, &report), 0);
    HOLDS(is_name(report.rows[0].obj_name, "a-task-whose-na"));
    close(f);
    close(g);
    close(h);
    close(t);
    close(u);
}

static void *open_by_name(void *unused)
{
    prctl(PR_SET_NAME, "a thread\xff");
    *(int *)unused = timeline();
    return NULL;
}

/* Each thread is a task. */
static void names_of_threads(void)
{
    struct report report;
    pthread_t thread;
    int t = -1;

    EXPECT(pthread_create(&thread, NULL, open_by_name, &t), 0);
    pthread_join(thread, NULL);
    int f = fence(t, 1);
    EXPECT(ask(f, &report), 0);
    HOLDS(is_name(report.rows[0].obj_name, "a thread\xff"));
    close(f);
    close(t);
}

/* A merge has the given name, cut at 31 bytes; without a name, it has the name of its fences. */
static void given_names(void)
{
    struct report report;
    char all[NAME];

    prctl(PR_SET_NAME, "merger");
    int t = timeline(), u = timeline(), a = fence(t, 3), b = fence(u, 4);
    memset(all, 'x', sizeof all);
    all[0] = '\xfe';
    int cut = merge(all, a, b), same = merge("", a, a), pair = merge("", a, b);
    EXPECT(ask(cut, &report), 0);
    all[NAME - 1] = 0;
    HOLDS(is_name(report.file.name, all));
    /* The caller's copy of the name is cut too, after the call. */
    struct sync_merge_data data = { .fd2 = b };
    memset(data.name, 'x', sizeof data.name);
    EXPECT(ioctl(a, SYNC_IOC_MERGE, &data), 0);
    EXPECT(data.name[NAME - 1], 0);
    close(data.fence);
    EXPECT(ask(same, &report), 0);
    HOLDS(is_of_form(report.file.name, "sw_sync-merger", "-3"));
    EXPECT(ask(pair, &report), 0);
    HOLDS(is_of_form(report.file.name, "dma_fence_array-unbound", "-1"));
    inc(t, 3);
    int stub = merge("", a, a), named = merge("stub's", a, a);
    EXPECT(ask(stub, &report), 0);
    HOLDS(is_name(report.file.name, "stub-stub0-0"));
    EXPECT(report.file.num_fences, 1);
    HOLDS(is_name(report.rows[0].obj_name, "stub"));
    HOLDS(is_name(report.rows[0].driver_name, "stub"));
    EXPECT(report.file.status, 1);
    EXPECT(ask(named, &report), 0);
    HOLDS(is_name(report.file.name, "stub's"));
    int files[] = { t, u, a, b, cut, same, pair, stub, named };
    for (int i = 0; i < 9; i++)
        close(files[i]);
}

static int is_within(__u64 time, __u64 from, __u64 to)
{
    return from <= time && time <= to;
}

/* A fence has the time at which it signalled, on CLOCK_MONOTONIC, and 0 before. */
static void times(void)
{
    struct report report;
    int t = timeline(), u = timeline(), f = fence(t, 1), later = fence(t, 2), other = fence(u, 1);
    int joined = merge("joined", f, other);

    EXPECT(ask(f, &report), 0);
    EXPECT(report.rows[0].timestamp_ns, 0);
    pause_for(2);
    __u64 before = now();
    inc(t, 1);
    __u64 after = now();
    pause_for(2);
    inc(t, 1);
    inc(u, 1);
    EXPECT(ask(f, &report), 0);
    HOLDS(is_within(report.rows[0].timestamp_ns, before, after));
    EXPECT(ask(later, &report), 0);
    HOLDS(is_within(report.rows[0].timestamp_ns, after + 2000000, now()));
    EXPECT(ask(joined, &report), 0);
    HOLDS(is_within(report.rows[0].timestamp_ns, before, after));
    HOLDS(is_within(report.rows[1].timestamp_ns, after + 2000000, now()));
    before = now();
    int reached = fence(t, 1);
    EXPECT(ask(reached, &report), 0);
    HOLDS(is_within(report.rows[0].timestamp_ns, before, now()));
    int files[] = { t, u, f, later, other, joined, reached };
    for (int i = 0; i < 7; i++)
        close(files[i]);
}

/* Closing a timeline gives -ENOENT to its pending fences; a merge has the status of its first fence that is pending or
 * has an error. */
static void statuses(void)
{
    struct report report;
    int t = timeline(), u = timeline(), reached = fence(t, 1), pending = fence(t, 2), other = fence(u, 1);
    int joined = merge("joined", pending, other), first = merge("first", other, reached);

    EXPECT(status(joined), 0);
    inc(t, 1);
    __u64 before = now();
    close(t);
    __u64 after = now();
    EXPECT(status(reached), 1);
    EXPECT(status(pending), -ENOENT);
    EXPECT(ask(pending, &report), 0);
    HOLDS(is_within(report.rows[0].timestamp_ns, before, after));
    EXPECT(ask(joined, &report), 0);
    EXPECT(report.rows[0].status, -ENOENT);
    EXPECT(report.rows[1].status, 0);
    EXPECT(report.file.status, -ENOENT);
    EXPECT(ask(first, &report), 0);
    EXPECT(report.rows[0].status, 1);
    EXPECT(report.rows[1].status, 0);
    EXPECT(report.file.status, 0);
    EXPECT(is_signalled(joined), 0);
    /* Without rows the status is the status of the whole file, which is pending while one fence is. */
    struct sync_file_info whole = { .num_fences = 0 };
    EXPECT(ioctl(joined, SYNC_IOC_FILE_INFO, &whole), 0);
    EXPECT(whole.status, 0);
    inc(u, 1);
    EXPECT(is_signalled(joined), 1);
    EXPECT(status(joined), -ENOENT);
    whole.num_fences = 0;
    EXPECT(ioctl(joined, SYNC_IOC_FILE_INFO, &whole), 0);
    EXPECT(whole.status, -ENOENT);
    EXPECT(status(first), 1);
    int files[] = { u, reached, pending, other, joined, first };
    for (int i = 0; i < 6; i++)
        close(files[i]);
}

/* A file has a row for each timeline, those opened first before the others. */
static void many_rows(void)
{
    struct report report;
    int timelines[ROWS], all = -1;
    char name[NAME];

    for (int i = 0; i < ROWS; i++) {
        snprintf(name, sizeof name, "row-%d", i);
        prctl(PR_SET_NAME, name);
        timelines[i] = timeline();
    }
    for (int i = ROWS - 1; i >= 0; i--) {
        int one = fence(timelines[i], 1), more = merge("all", i == ROWS - 1 ? one : all, one);
        close(one);
        close(all);
        all = more;
    }
    EXPECT(ask(all, &report), 0);
    EXPECT(report.file.num_fences, ROWS);
    for (int i = 0; i < ROWS; i++) {
        snprintf(name, sizeof name, "row-%d", i);
        HOLDS(is_name(report.rows[i].obj_name, name));
        EXPECT(is_signalled(all), 0);
        inc(timelines[i], 1);
        EXPECT(count_with(all, 1), i + 1);
    }
    EXPECT(is_signalled(all), 1);
    for (int i = 0; i < ROWS; i++)
        close(timelines[i]);
    EXPECT(status(all), 1);
    close(all);
}

/* Reads a file as text. */
static void read_whole(const char *path, char *text, size_t room, int by_stream)
{
    size_t length = 0;
    ssize_t came = 0;

    if (by_stream) {
        FILE *stream = fopen(path, "r");
        HOLDS(stream);
        if (stream) {
            length = fread(text, 1, room - 1, stream);
            fclose(stream);
        }
    } else {
        int fd = open(path, O_RDONLY);
        HOLDS(fd >= 0);
        while (fd >= 0 && (came = read(fd, text + length, room - 1 - length)) > 0)
            length += (size_t)came;
        EXPECT(came, 0);
        if (fd >= 0)
            close(fd);
    }
    text[length] = 0;
}

/* The lines of a timeline in the kernel's text: its value, and its pending fences by rising point. */
static void text_of_all(void)
{
    static char text[1 << 20];

    prctl(PR_SET_NAME, "listed");
    int t = timeline(), late = fence(t, 9), soon = fence(t, 5), reached = fence(t, 2);
    inc(t, 3);
    for (int by_stream = 0; by_stream < 2; by_stream++) {
        read_whole(SYNC_INFO, text, sizeof text, by_stream);
        HOLDS(!strncmp(text, "objs:\n--------------\n", 21));
        HOLDS(strstr(text, "listed: 3\n  fence active: 5 / 3\n  fence active: 9 / 3\n\n"));
        HOLDS(strstr(text, "\nfences:\n--------------\n"));
    }
    close(late);
    close(soon);
    close(reached);
    close(t);
    read_whole(SYNC_INFO, text, sizeof text, 0);
    HOLDS(!strstr(text, "listed"));
}

/* A closed timeline is listed while any of its fences exists, with the fences that it cancelled. */
static void text_of_closed(void)
{
    static char text[1 << 20];
    char lines[256];
    struct report report;

    prctl(PR_SET_NAME, "closed");
    int t = timeline(), reached = fence(t, 1), soon = fence(t, 2), late = fence(t, 3), joined = merge("", soon, late);
    inc(t, 1);
    close(t);
    EXPECT(ask(soon, &report), 0);
    unsigned long long at = report.rows[0].timestamp_ns, second = 1000000000;
    for (int i = 2; i <= 3; i++) {
        int length = snprintf(lines, sizeof lines, "closed: 1\n");
        for (int point = i; point <= 3; point++)
            length += snprintf(lines + length, sizeof lines - (size_t)length, "  fence error@%llu.%09llu: %d / 1\n", at / second,
                               at % second, point);
        snprintf(lines + length, sizeof lines - (size_t)length, "\n");
        read_whole(SYNC_INFO, text, sizeof text, 0);
        HOLDS(strstr(text, lines));
        close(i == 2 ? soon : late);
    }
    /* The merged file has the later fence of each timeline, and the signalled fence keeps its timeline listed. */
    read_whole(SYNC_INFO, text, sizeof text, 0);
    HOLDS(strstr(text, lines));
    close(joined);
    read_whole(SYNC_INFO, text, sizeof text, 0);
    HOLDS(strstr(text, "closed: 1\n\n"));
    close(reached);
    read_whole(SYNC_INFO, text, sizeof text, 0);
    HOLDS(!strstr(text, "closed"));
}

int main(void)
{
    give_up_after(30);
    names();
    names_of_threads();
    given_names();
    times();
    statuses();
    many_rows();
    text_of_all();
    text_of_closed();
    return report("reports");
}
