#define _GNU_SOURCE
#include "program.h"

#include <elf.h>
#include <errno.h>
#include <fcntl.h>
#include <limits.h>
#include <stdbool.h>
#include <stdio.h>
#include <stdlib.h>
#include <string.h>
#include <sys/stat.h>
#include <sys/xattr.h>
#include <unistd.h>

enum { HEADER_BYTES = 64, INTERPRETER_BYTES = 256, SCRIPTS = 4 };

/* The parts of a program's file that the check needs. */
struct image {
    bool is_elf;
    char loader[INTERPRETER_BYTES]; /* an ELF file's loader, a script's interpreter, or "" */
};

static bool is_program(const char *path)
{
    struct stat found;

    return access(path, X_OK) == 0 && stat(path, &found) == 0 && S_ISREG(found.st_mode);
}

/* Searches PATH like execvp(3). */
static bool find(const char *program, char *path)
{
    const char *folders = getenv("PATH");

    if (strchr(program, '/')) {
        snprintf(path, PATH_MAX, "%s", program);
        return access(path, F_OK) == 0;
    }
    for (const char *at = folders ? folders : "/bin:/usr/bin"; at; at = strchr(at, ':') ? strchr(at, ':') + 1 : NULL) {
        int length = strcspn(at, ":");

        if (snprintf(path, PATH_MAX, "%.*s%s%s", length, at, length ? "/" : "./", program) < PATH_MAX &&
            is_program(path))
            return true;
    }
    return false;
}

/* Reads the path of the loader that an ELF file names. */
static void read_loader(int file, const Elf64_Ehdr *header, struct image *image)
{
    for (int i = 0; i < header->e_phnum; i++) {
        Elf64_Phdr part;

        if (pread(file, &part, sizeof part, header->e_phoff + i * sizeof part) != sizeof part)
            return;
        if (part.p_type == PT_INTERP && part.p_filesz < INTERPRETER_BYTES &&
            pread(file, image->loader, part.p_filesz, part.p_offset) == (ssize_t)part.p_filesz)
            image->loader[part.p_filesz] = 0;
    }
}

static void read_script(const char *line, struct image *image)
{
    line += 2 + strspn(line + 2, " \t");
    snprintf(image->loader, sizeof image->loader, "%.*s", (int)strcspn(line, " \t\n"), line);
}

static bool read_image(const char *path, struct image *image)
{
    int file = open(path, O_RDONLY | O_CLOEXEC);
    char start[INTERPRETER_BYTES + 1] = { 0 };
    Elf64_Ehdr header;
    ssize_t length = file < 0 ? -1 : pread(file, start, INTERPRETER_BYTES, 0);

    *image = (struct image){ .is_elf = length >= HEADER_BYTES && memcmp(start, ELFMAG, SELFMAG) == 0 };
    memcpy(&header, start, sizeof header);
    if (image->is_elf && header.e_ident[EI_CLASS] == ELFCLASS64)
        read_loader(file, &header, image);
    else if (image->is_elf)
        strcpy(image->loader, "the 32-bit loader");
    else if (length > 2 && memcmp(start, "#!", 2) == 0)
        read_script(start, image);
    if (file >= 0)
        close(file);
    return length >= 0;
}

/* Returns whether a program runs with more rights than its caller. For such a program, the loader ignores
 * LD_PRELOAD. */
static bool gains_rights(const char *path)
{
    struct stat found;

    if (stat(path, &found))
        return false;
    return (found.st_mode & S_ISUID && found.st_uid != getuid()) ||
           (found.st_mode & S_ISGID && found.st_gid != getgid()) ||
           (getuid() != 0 && getxattr(path, "security.capability", NULL, 0) > 0);
}

static const char *name_of(const char *path)
{
    return strrchr(path, '/') ? strrchr(path, '/') + 1 : path;
}

static bool is_same_file(const char *path, const char *other)
{
    struct stat found, wanted;

    return stat(path, &found) == 0 && stat(other, &wanted) == 0 && found.st_dev == wanted.st_dev &&
           found.st_ino == wanted.st_ino;
}

static int refuse(const char *program, const char *reason, const char *way_out)
{
    fprintf(stderr, "bimphlai-run: %s %s; %s\n", program, reason, way_out);
    return PROGRAM_CANT_RUN;
}

static int check_elf(const char *path, const struct image *image)
{
    struct image own;
    bool has_own = read_image("/proc/self/exe", &own);

    if (gains_rights(path))
        return refuse(path, "gets rights of another user or group, and the loader preloads nothing for such a program",
                      "run a copy without these rights");
    /* The loader itself, which runs a program named by its arguments. */
    if (!image->loader[0] && has_own && is_same_file(path, own.loader))
        return 0;
    if (!image->loader[0])
        return refuse(path, "is a static program, into which no library can be preloaded",
                      "link it dynamically, or build the calls of libbimphlai into it (bimphlai-run(1))");
    if (has_own && strcmp(name_of(own.loader), name_of(image->loader)) != 0)
        return refuse(
            path, "has another loader than bimphlai-run, and the loader preloads nothing for it that is built for ours",
            "build both for the same machine and C library");
    return 0;
}

int program_check(const char *program)
{
    char path[PATH_MAX];
    struct image image;

    if (!find(program, path)) {
        fprintf(stderr, "bimphlai-run: %s: %s\n", program,
                strchr(program, '/') ? strerror(ENOENT) : "not found in PATH");
        return PROGRAM_NOT_FOUND;
    }
    if (!is_program(path)) {
        fprintf(stderr, "bimphlai-run: %s: %s\n", path, strerror(EACCES));
        return PROGRAM_CANT_RUN;
    }
    for (int scripts = 0; scripts < SCRIPTS && read_image(path, &image); scripts++) {
        if (image.is_elf)
            return check_elf(path, &image);
        if (!image.loader[0])
            return 0;
        memcpy(path, image.loader, sizeof image.loader);
    }
    return 0;
}
