/* umbristal-dbd: DBD statements to a catalogue and its list of names, and back. The work is umbristal_dbd_read and umbristal_dbd_write; here are files
 * and words. A file is written beside and renamed, so that whatever fails leaves the old one. */
#include <errno.h>
#include <stdio.h>
#include <stdlib.h>
#include <string.h>
#include <umbristal.h>

enum { DONE = 0, REFUSED = 1, FAILED = 2 };

static const char usage[] =
    "usage: umbristal-dbd read STATEMENTS CATALOGUE NAMES\n"
    "       umbristal-dbd write CATALOGUE NAMES STATEMENTS\n"
    "\n"
    "read makes a catalogue and its list of names from DBD statements; write makes the statements again. STATEMENTS may\n"
    "be - for standard input or output. Where the statements are wrong, `line N: ..` says on standard error which is the\n"
    "first bad line and what is wrong with it, and no file is written.\n"
    "\n"
    "Status 0: done. 1: refused. 2: wrong usage, or a file that cannot be read or written.\n";

struct block {
    uint8_t *bytes;
    size_t length;
};

static int fail(const char *path)
{
    fprintf(stderr, "umbristal-dbd: %s: %s\n", path, strerror(errno));
    exit(FAILED);
}

static void *room(size_t size)
{
    void *made = malloc(size ? size : 1);
    if (!made)
        fail("memory");
    return made;
}

/* All of a file, however long it is. */
static struct block read_file(const char *path)
{
    FILE *file = strcmp(path, "-") == 0 ? stdin : fopen(path, "rb");
    if (!file)
        fail(path);
    struct block all = {room(4096), 0};
    size_t size = 4096, got;
    while ((got = fread(all.bytes + all.length, 1, size - all.length, file)) > 0) {
        all.length += got;
        if (all.length == size) {
            uint8_t *more = realloc(all.bytes, size *= 2);
            if (!more)
                fail(path);
            all.bytes = more;
        }
    }
    if (ferror(file) || (file != stdin && fclose(file) != 0))
        fail(path);
    return all;
}

static char *beside(const char *path)
{
    char *name = room(strlen(path) + 5);
    return strcat(strcpy(name, path), ".NEW");
}

/* The bytes, under the name that they have until all is written. */
static void write_beside(const char *path, const uint8_t *bytes, size_t length)
{
    char *name = beside(path);
    FILE *file = fopen(name, "wb");
    if (!file)
        fail(name);
    if (fwrite(bytes, 1, length, file) != length || fclose(file) != 0) {
        int error = errno;
        remove(name);
        errno = error;
        fail(name);
    }
    free(name);
}

static void put_in_place(const char *path)
{
    char *name = beside(path);
    if (rename(name, path) != 0)
        fail(path);
    free(name);
}

/* How many lines a text has: what stands behind the last LF is one too, if it is not empty. */
static size_t lines_of(struct block text)
{
    size_t lines = text.length > 0 && text.bytes[text.length - 1] != '\n';
    for (size_t i = 0; i < text.length; i++)
        lines += text.bytes[i] == '\n';
    return lines;
}

static const char *what_is_wrong(uint8_t fault)
{
    switch (fault) {
    case UMBRISTAL_DBD_STATEMENT:
        return "no statement that can stand here. Expected is DBD NAME=name as the first statement and no other,\n"
               "  SEGM NAME=name,PARENT=name,BYTES=number (PARENT=0 for the first SEGM alone), or behind a SEGM\n"
               "  FIELD NAME=name,BYTES=number,START=number,TYPE=C or X, with NAME=(name,SEQ,U) or (name,SEQ,M) once a segment";
    case UMBRISTAL_DBD_NAME:
        return "this name is taken: segments have names of their own, and so have the fields of one segment";
    case UMBRISTAL_DBD_PARENT:
        return "no SEGM before this one has the name that PARENT= gives";
    default:
        return "CX, against the rules of a catalogue: at most 32 segments of 1 to 120 bytes, each beneath the one before it or a segment\n"
               "  above that, down to level 15; at most 64 fields, each within the bytes of its segment";
    }
}

static int read_statements(const char *statements, const char *catalogue, const char *list)
{
    uint8_t cat[UMBRISTAL_CATALOGUE_MOST], names[UMBRISTAL_NAMES_MOST];
    struct block text = read_file(statements);
    uint64_t result = umbristal_dbd_read(text.bytes, text.length, cat, sizeof cat, names, sizeof names);
    size_t lines = lines_of(text);
    free(text.bytes);
    if (umbristal_status(result) != UMBRISTAL_BLANK) {
        unsigned long line = umbristal_dbd_line(result);
        fprintf(stderr, "line %lu: %s\n", line, line > lines ? "the statements end without a DBD and a SEGM" : what_is_wrong(umbristal_status(result)));
        return REFUSED;
    }
    write_beside(catalogue, cat, umbristal_dbd_catalogue_size(result));
    write_beside(list, names, umbristal_dbd_names_size(result));
    put_in_place(catalogue);
    put_in_place(list);
    return DONE;
}

static int write_statements(const char *catalogue, const char *list, const char *statements)
{
    uint8_t text[UMBRISTAL_DBD_MOST];
    struct block cat = read_file(catalogue), names = read_file(list);
    uint64_t result = umbristal_dbd_write(cat.bytes, cat.length, names.bytes, names.length, text, sizeof text);
    size_t length = umbristal_dbd_length(result);
    free(cat.bytes);
    free(names.bytes);
    if (umbristal_status(result) != UMBRISTAL_BLANK) {
        fprintf(stderr, "umbristal-dbd: %s, %s: CX, no statements say this catalogue with these names\n", catalogue, list);
        return REFUSED;
    }
    if (strcmp(statements, "-") != 0) {
        write_beside(statements, text, length);
        put_in_place(statements);
    } else if (fwrite(text, 1, length, stdout) != length || fflush(stdout) != 0) {
        fail("standard output");
    }
    return DONE;
}

static int told(const char *words)
{
    if (fputs(words, stdout) < 0 || fflush(stdout) != 0)
        fail("standard output");
    return DONE;
}

int main(int argc, char **argv)
{
    if (argc == 2 && (strcmp(argv[1], "--help") == 0 || strcmp(argv[1], "-h") == 0))
        return told(usage);
    if (argc == 2 && strcmp(argv[1], "--version") == 0)
        return told("umbristal-dbd " UMBRISTAL_VERSION "\n");
    if (argc == 5 && strcmp(argv[1], "read") == 0)
        return read_statements(argv[2], argv[3], argv[4]);
    if (argc == 5 && strcmp(argv[1], "write") == 0)
        return write_statements(argv[2], argv[3], argv[4]);
    fputs(usage, stderr);
    return FAILED;
}
