/* umbristal-list: the listing program, crates/lister, with names for its files, and with words and a status for what comes of them. The proved program
 * is linked as it is; its calls of the system (main, open, read and write, by the linker's --wrap) come here. tools/host-lister links the two. */
#include <errno.h>
#include <stdio.h>
#include <stdlib.h>
#include <string.h>
#include <sys/stat.h>
#include <umbristal.h>
#include <unistd.h>

enum { LISTED = 0, REFUSED = 1, FAILED = 2 };
enum { LONGEST_TABLE = 65536 }; /* that this program takes (R68) */

static const char usage[] =
    "usage: umbristal-list [CATALOGUE TABLE]\n"
    "\n"
    "Lists the segments of a table, a line each: cell, type, level, status and data in hex. The last line is GB, or CX\n"
    "or TX where the files are refused. Without names it reads CAT.HDC and TAB.HDT of the folder that it is called in.\n"
    "A file that is not there counts as an empty one. A catalogue has at most 520 bytes, a table at most 65,536.\n"
    "\n"
    "Status 0: the listing is whole. 1: the files are refused, by CX (catalogue) or TX (table). 2: wrong usage, a\n"
    "file that cannot be read, or an output that cannot be written.\n";

static const char *catalogue = "CAT.HDC", *table = "TAB.HDT";
static const char *opened; /* the file that the program reads from now */
static char tail[3];       /* the last bytes that were written */

int __real_main(int argc, char **argv);
int __real_open(const char *path, int how, ...);
ssize_t __real_read(int fd, void *to, size_t n);
ssize_t __real_write(int fd, const void *from, size_t n);
int __wrap_main(int argc, char **argv);
int __wrap_open(const char *path, int how, ...);
ssize_t __wrap_read(int fd, void *to, size_t n);
ssize_t __wrap_write(int fd, const void *from, size_t n);
void *__wrap___sysv_signal(int number, void *does);

static void fail(const char *what)
{
    fprintf(stderr, "umbristal-list: %s: %s\n", what, strerror(errno));
    exit(FAILED);
}

/* The program asks for CAT.HDC and TAB.HDT, and gets what the caller named instead. */
int __wrap_open(const char *path, int how, ...)
{
    opened = strcmp(path, "CAT.HDC") == 0 ? catalogue : table;
    int fd = __real_open(opened, how, 0);
    if (fd < 0 && errno != ENOENT)
        fail(opened);
    struct stat file;
    if (fd < 0)
        fprintf(stderr, "umbristal-list: %s: is not there, and counts as empty\n", opened);
    else if (opened == table && fstat(fd, &file) == 0 && file.st_size > LONGEST_TABLE)
        fprintf(stderr, "umbristal-list: %s: has more than %d bytes, too many for this program: that says nothing of the table\n", opened, LONGEST_TABLE);
    return fd;
}

/* A pipe that nobody reads any more ends this program by its signal, as it does others, so the signal is not ignored. */
void *__wrap___sysv_signal(int number, void *does)
{
    (void)number;
    (void)does;
    return NULL;
}

ssize_t __wrap_read(int fd, void *to, size_t n)
{
    ssize_t got;
    do
        got = __real_read(fd, to, n);
    while (got < 0 && errno == EINTR);
    if (got < 0)
        fail(opened);
    return got;
}

/* A line that is not taken ends the program here, with this program's words. */
ssize_t __wrap_write(int fd, const void *from, size_t n)
{
    ssize_t put;
    do
        put = __real_write(fd, from, n);
    while (put < 0 && errno == EINTR);
    if (put <= 0)
        fail("standard output");
    for (ssize_t i = 0; i < put; i++) {
        memmove(tail, tail + 1, sizeof tail - 1);
        tail[sizeof tail - 1] = ((const char *)from)[i];
    }
    return put;
}

static int wrong_usage(void)
{
    fputs(usage, stderr);
    return FAILED;
}

static int told(const char *words)
{
    if (fputs(words, stdout) < 0 || fflush(stdout) != 0)
        fail("standard output");
    return LISTED;
}

int __wrap_main(int argc, char **argv)
{
    if (argc == 2 && (strcmp(argv[1], "--help") == 0 || strcmp(argv[1], "-h") == 0))
        return told(usage);
    if (argc == 2 && strcmp(argv[1], "--version") == 0)
        return told("umbristal-list " UMBRISTAL_VERSION "\n");
    int first = argc > 1 && strcmp(argv[1], "--") == 0 ? 2 : 1;
    if (first == 1 && argc > 1 && argv[1][0] == '-')
        return wrong_usage();
    if (argc - first == 2) {
        catalogue = argv[first];
        table = argv[first + 1];
    } else if (argc != first) {
        return wrong_usage();
    }
    __real_main(1, argv);
    if (close(STDOUT_FILENO) != 0)
        fail("standard output");
    return memcmp(tail, "GB\n", sizeof tail) == 0 ? LISTED : REFUSED;
}
