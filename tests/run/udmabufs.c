/* Buffers that /dev/udmabuf makes of memory files: its arguments, the memory that the buffers map, and their fences. */
#include "kernel.h"
#include <linux/udmabuf.h>
#include <sys/syscall.h>

#ifndef F_SEAL_FUTURE_WRITE
#define F_SEAL_FUTURE_WRITE 0x0010
#endif

#define UDMABUF "/dev/udmabuf"

enum { PAGE = 4096, PAGES = 4, MOST_ITEMS = 1024, MOST_BYTES = 64 << 20, FIRST_CLOSED = 300, LAST_CLOSED = 4000 };

static int device;

/* Makes a memory file, each page of which begins with its number and a letter. */
static int memory(int pages, char letter, int seals)
{
    int file = (int)syscall(SYS_memfd_create, "memory", MFD_ALLOW_SEALING | MFD_CLOEXEC);

    EXPECT(ftruncate(file, pages * PAGE), 0);
    for (int i = 0; i < pages; i++)
        EXPECT(pwrite(file, (char[]){ (char)('0' + i), letter }, 2, i * PAGE), 2);
    if (seals)
        EXPECT(fcntl(file, F_ADD_SEALS, seals), 0);
    return file;
}

static int create(int file, __u64 offset, __u64 size, __u32 flags)
{
    struct udmabuf_create data = { .memfd = (__u32)file, .flags = flags, .offset = offset, .size = size };

    return ioctl(device, UDMABUF_CREATE, &data);
}

static union {
    struct udmabuf_create_list head;
    char room[sizeof(struct udmabuf_create_list) + (MOST_ITEMS + 1) * sizeof(struct udmabuf_create_item)];
} list;

static void set_item(int at, int file, __u64 offset, __u64 size)
{
    list.head.list[at] = (struct udmabuf_create_item){ .memfd = (__u32)file, .offset = offset, .size = size };
}

static int create_list(__u32 count)
{
    list.head.count = count;
    return ioctl(device, UDMABUF_CREATE_LIST, &list);
}

static void refusals(void)
{
    int good = memory(PAGES, 'a', F_SEAL_SHRINK), grows = memory(PAGES, 'a', 0), before = lowest();
    int sealed = memory(PAGES, 'a', F_SEAL_SHRINK | F_SEAL_WRITE);
    int later = memory(PAGES, 'a', F_SEAL_SHRINK | F_SEAL_FUTURE_WRITE), pipes[2], closed = 999;
    int unsealable = (int)syscall(SYS_memfd_create, "memory", MFD_CLOEXEC);

    EXPECT(pipe(pipes), 0);
    FAILS(create(good, 1, PAGE, 0), EINVAL);
    FAILS(create(good, 0, PAGE + 1, 0), EINVAL);
    FAILS(create(good, 0, 0, 0), EINVAL);
    FAILS(create(good, 0, (PAGES + 1) * PAGE, 0), EINVAL);
    FAILS(create(good, PAGES * PAGE, PAGE, 0), EINVAL);
    FAILS(create(good, ~(__u64)0 / PAGE * PAGE, PAGE, 0), EINVAL);
    FAILS(create(good, 0, MOST_BYTES + PAGE, 0), EINVAL);
    FAILS(create(good, 0, ~(__u64)0 / PAGE * PAGE, 0), EINVAL);
    FAILS(create(grows, 0, PAGE, 0), EINVAL);
    FAILS(create(sealed, 0, PAGE, 0), EINVAL);
    FAILS(create(later, 0, PAGE, 0), EINVAL);
    EXPECT(ftruncate(unsealable, PAGE), 0);
    FAILS(create(unsealable, 0, PAGE, 0), EINVAL);
    FAILS(create(pipes[0], 0, PAGE, 0), EBADFD);
    FAILS(create(0, 0, PAGE, 0), EBADFD);
    FAILS(create(device + closed, 0, PAGE, 0), EBADFD);
    FAILS(create(-1, 0, PAGE, 0), EBADFD);
    FAILS(create(-1, 1, PAGE, 0), EINVAL);
    FAILS(ioctl(device, UDMABUF_CREATE, NULL), EFAULT);
    FAILS(ioctl(device, UDMABUF_CREATE_LIST, NULL), EFAULT);
    FAILS(ioctl(device, DMA_HEAP_IOCTL_ALLOC, NULL), ENOTTY);
    FAILS(ioctl(device, _IO('u', 1), NULL), ENOTTY);
    FAILS(ioctl(good, UDMABUF_CREATE, &(struct udmabuf_create){ .size = PAGE }), ENOTTY);
    int files[] = { pipes[0], pipes[1], sealed, later, unsealable, good, grows };
    for (int i = 0; i < 7; i++)
        close(files[i]);
    HOLDS(lowest() <= before);
}

static void refused_lists(void)
{
    int good = memory(1, 'a', F_SEAL_SHRINK), bad = memory(1, 'b', 0), before = lowest();

    for (int i = 0; i <= MOST_ITEMS; i++)
        set_item(i, good, 0, PAGE);
    FAILS(create_list(0), EINVAL);
    FAILS(create_list(MOST_ITEMS + 1), EINVAL);
    FAILS(create_list(~0u), EINVAL);
    set_item(2, bad, 0, PAGE);
    FAILS(create_list(3), EINVAL);
    set_item(2, -1, 0, PAGE);
    FAILS(create_list(3), EBADFD);
    set_item(2, -1, 1, PAGE);
    FAILS(create_list(3), EINVAL);
    for (int i = 0; i < 3; i++)
        set_item(i, good, 0, MOST_BYTES / 2);
    FAILS(create_list(3), EINVAL);
    EXPECT(lowest(), before);
    close(good);
    close(bad);
}

/* The buffer's memory is the file's, in every process, and stays when the file is closed. */
static void memory_of_one(void)
{
    int file = memory(PAGES, 'a', F_SEAL_SHRINK), b = create(file, PAGE, 2 * PAGE, UDMABUF_FLAGS_CLOEXEC);
    int inherited = create(file, 0, PAGE, 0);

    EXPECT(fcntl(b, F_GETFD), FD_CLOEXEC);
    EXPECT(fcntl(inherited, F_GETFD), 0);
    EXPECT(lseek(b, 0, SEEK_END), 2 * PAGE);
    FAILS(mmap(NULL, 3 * PAGE, PROT_READ, MAP_SHARED, b, 0) == MAP_FAILED ? -1 : 0, EINVAL);
    FAILS(mmap(NULL, PAGE, PROT_READ, MAP_PRIVATE, b, 0) == MAP_FAILED ? -1 : 0, EINVAL);
    char *both = mmap(NULL, 2 * PAGE, PROT_READ | PROT_WRITE, MAP_SHARED, b, 0);
    char *last = mmap(NULL, PAGE, PROT_READ, MAP_SHARED, b, PAGE);
    HOLDS(both != MAP_FAILED && last != MAP_FAILED);
    if (both == MAP_FAILED || last == MAP_FAILED)
        return;
    EXPECT(both[0], '1');
    EXPECT(last[0], '2');
    both[PAGE + 5] = 42;
    EXPECT(last[5], 42);
    char byte = 0;
    EXPECT(pread(file, &byte, 1, 2 * PAGE + 5), 1);
    EXPECT(byte, 42);
    close(file);
    char *again = mmap(NULL, PAGE, PROT_READ, MAP_SHARED, b, PAGE);
    EXPECT(again == MAP_FAILED ? -1 : again[5], 42);
    munmap(both, 2 * PAGE);
    munmap(last, PAGE);
    munmap(again, PAGE);
    close(b);
    close(inherited);
}

static int is_at(const char *mapped, int page, char number, char letter)
{
    return mapped[page * PAGE] == number && mapped[page * PAGE + 1] == letter;
}

static void memory_of_several(void)
{
    int one = memory(PAGES, 'a', F_SEAL_SHRINK), other = memory(PAGES, 'b', F_SEAL_SHRINK);

    set_item(0, one, 2 * PAGE, 2 * PAGE);
    set_item(1, other, PAGE, PAGE);
    set_item(2, one, 0, 0);
    set_item(3, one, 0, PAGE);
    int b = create_list(4);
    EXPECT(lseek(b, 0, SEEK_END), 4 * PAGE);
    char *all = mmap(NULL, 4 * PAGE, PROT_READ | PROT_WRITE, MAP_SHARED, b, 0);
    char *middle = mmap(NULL, 2 * PAGE, PROT_READ, MAP_SHARED, b, PAGE);
    HOLDS(all != MAP_FAILED && middle != MAP_FAILED);
    if (all == MAP_FAILED || middle == MAP_FAILED)
        return;
    HOLDS(is_at(all, 0, '2', 'a') && is_at(all, 1, '3', 'a') && is_at(all, 2, '1', 'b') && is_at(all, 3, '0', 'a'));
    HOLDS(is_at(middle, 0, '3', 'a') && is_at(middle, 1, '1', 'b'));
    all[2 * PAGE + 7] = 42;
    EXPECT(middle[PAGE + 7], 42);
    munmap(all, 4 * PAGE);
    munmap(middle, 2 * PAGE);
    close(b);
    close(one);
    close(other);
}

static void longest_list(void)
{
    int file = memory(1, 'a', F_SEAL_SHRINK);

    for (int i = 0; i < MOST_ITEMS; i++)
        set_item(i, file, 0, PAGE);
    int b = create_list(MOST_ITEMS);
    EXPECT(lseek(b, 0, SEEK_END), (long)MOST_ITEMS * PAGE);
    close(b);
    close(file);
}

/* Fences behave as in a heap's buffer. */
static void fences(void)
{
    int file = memory(1, 'a', F_SEAL_SHRINK), b = create(file, 0, PAGE, UDMABUF_FLAGS_CLOEXEC);
    int t = timeline(), writer = fence(t, 1);

    EXPECT(ready(b, POLLIN | POLLOUT, 0), POLLIN | POLLOUT);
    EXPECT(import(b, writer, DMA_BUF_SYNC_WRITE), 0);
    EXPECT(ready(b, POLLIN | POLLOUT, 0), 0);
    int reader = export(b, DMA_BUF_SYNC_READ);
    EXPECT(is_signalled(reader), 0);
    EXPECT(inc(t, 1), 0);
    EXPECT(is_signalled(reader), 1);
    EXPECT(ready(b, POLLIN | POLLOUT, 0), POLLIN | POLLOUT);
    EXPECT(access_buffer(b, DMA_BUF_SYNC_START | DMA_BUF_SYNC_RW), 0);
    EXPECT(access_buffer(b, DMA_BUF_SYNC_END | DMA_BUF_SYNC_RW), 0);
    EXPECT(ioctl(b, DMA_BUF_SET_NAME_B, "frame"), 0);
    int files[] = { b, t, writer, reader, file };
    for (int i = 0; i < 5; i++)
        close(files[i]);
}

static int byte_at(int b, int at)
{
    char *mapped = mmap(NULL, PAGE, PROT_READ, MAP_SHARED, b, 0);
    int byte = mapped == MAP_FAILED ? -1 : mapped[at];

    if (mapped != MAP_FAILED)
        munmap(mapped, PAGE);
    return byte;
}

/* A program that closes numbers which it hasn't opened doesn't take a buffer's memory away. */
static void closed_numbers(void)
{
    int file = memory(1, 'a', F_SEAL_SHRINK), b = create(file, 0, PAGE, UDMABUF_FLAGS_CLOEXEC);

    close(file);
    for (int fd = FIRST_CLOSED; fd < LAST_CLOSED; fd++)
        close(fd);
    int others = memory(1, 'b', 0);
    EXPECT(byte_at(b, 1), 'a');
    close(others);
    close(b);
}

int main(void)
{
    struct stat found;
    int before = lowest();

    give_up_after(60);
    EXPECT(stat(UDMABUF, &found), 0);
    HOLDS(S_ISCHR(found.st_mode));
    EXPECT(access(UDMABUF, R_OK | W_OK), 0);
    device = open(UDMABUF, O_RDWR | O_CLOEXEC);
    HOLDS(device >= 0);
    refusals();
    refused_lists();
    memory_of_one();
    memory_of_several();
    longest_list();
    fences();
    closed_numbers();
    close(device);
    EXPECT(lowest(), before);
    return report("udmabufs");
}
