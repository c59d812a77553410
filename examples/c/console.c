/* console CAT.HDC TAB.HDT: DL/I calls on two files, a line each, from standard input. The files are read and never written.
 *
 *   gcc -o console console.c $(pkg-config --cflags umbristal) $(pkg-config --variable=archive umbristal)
 *
 *   GU 1/1=07 2/2=14      a call with a list: type, or type/field, an operator (= <> < <= > >=) and a value
 *   ISRT 1/1=07 2 : 15A   data behind a colon
 *   report 1/1=07 | 3     the segments that match two lists as one, by their cells
 *   tree, fresh           all segments; a fresh position
 *
 * A value or data may be written in hex: X'3037'. Each answer has the status, the segment, and behind a semicolon the position. */
#include <umbristal.h>
#include <ctype.h>
#include <stdio.h>
#include <stdlib.h>
#include <string.h>

struct store {
    uint8_t cat[UMBRISTAL_CATALOGUE_MOST + 1], tab[UMBRISTAL_TABLE_MOST + 1];
    size_t cat_len, tab_len;
    uint8_t pos[UMBRISTAL_POSITION_SIZE];
};

struct list {
    uint8_t bytes[UMBRISTAL_LIST_SIZE];
    size_t used;
};

static const char *const CALLS[] = { "", "GU", "GN", "GNP", "GHU", "GHN", "GHNP", "ISRT", "REPL", "DLET" };
static const char *const OPERATORS[] = { "", "=", "<>", "<", "<=", ">", ">=" };

static size_t file_read(const char *name, uint8_t *to, size_t most) {
    FILE *file = fopen(name, "rb");
    size_t read;
    if (!file) {
        perror(name);
        exit(2);
    }
    read = fread(to, 1, most, file);
    if (ferror(file)) {
        perror(name);
        exit(2);
    }
    fclose(file);
    return read;
}

/* Text, or the bytes of X'..', into room for one byte more than there can be; the number of bytes, or -1 for what is no hex. */
static long bytes_of(const char *text, uint8_t *to)
{
    static const char digits[] = "0123456789ABCDEF";
    long n = 0;
    if (strncmp(text, "X'", 2) != 0) {
        while (n <= UMBRISTAL_DATA_MOST && text[n]) {
            to[n] = (uint8_t)text[n];
            n++;
        }
        return n;
    }
    for (text += 2; n <= UMBRISTAL_DATA_MOST && strcmp(text, "'") != 0; text += 2) {
        const char *high = text[0] ? strchr(digits, text[0]) : NULL, *low = high && text[1] ? strchr(digits, text[1]) : NULL;
        if (low == NULL)
            return -1;
        to[n++] = (uint8_t)(16 * (high - digits) + (low - digits));
    }
    return n;
}

/* A number of a byte, and what follows it; -1 for anything else. */
static int number_at(const char **at)
{
    char *rest;
    unsigned long n = isdigit((unsigned char)**at) ? strtoul(*at, &rest, 10) : 256;
    if (n > 255)
        return -1;
    *at = rest;
    return (int)n;
}

/* The number of the longest operator that stands here, and what follows it. */
static uint8_t operator_at(const char **at) {
    uint8_t best = 0;
    for (uint8_t i = 1; i <= UMBRISTAL_OP_GE; i++)
        if (strncmp(*at, OPERATORS[i], strlen(OPERATORS[i])) == 0 && strlen(OPERATORS[i]) > strlen(OPERATORS[best]))
            best = i;
    *at += strlen(OPERATORS[best]);
    return best;
}

/* One word of a list: 2 or 2/2=14. 0 for what is none. */
static int argument_add(const struct store *s, struct list *list, const char *word)
{
    uint8_t value[UMBRISTAL_DATA_MOST + 1];
    const char *at = word;
    int code = number_at(&at);
    if (code >= 0 && *at == 0) {
        list->used = umbristal_list_all(list->bytes, list->used, (uint8_t)code);
        return 1;
    }
    if (code < 0 || *at++ != '/')
        return 0;
    int field = number_at(&at);
    uint8_t operation = field < 0 ? 0 : operator_at(&at);
    long n = operation == 0 ? -1 : bytes_of(at, value);
    if (n < 0)
        return 0;
    list->used = umbristal_list_test(s->cat, s->cat_len, list->bytes, list->used, (uint8_t)code, operation, (uint8_t)field, value, (size_t)n);
    return 1;
}

static int list_read(const struct store *s, struct list *list, char *text)
{
    list->used = 0;
    for (char *word = strtok(text, " "); word; word = strtok(NULL, " "))
        if (!argument_add(s, list, word)) {
            printf("%s: no argument; write 2 or 2/2=14, with = <> < <= > or >=\n", word);
            return 0;
        }
    return 1;
}

static void data_print(const uint8_t *data, size_t n) {
    int plain = 1;
    for (size_t i = 0; i < n; i++)
        plain = plain && isgraph(data[i]);
    if (!plain)
        printf("X'");
    for (size_t i = 0; i < n; i++)
        printf(plain ? "%c" : "%02X", data[i]);
    if (!plain)
        printf("'");
}

static void position_print(const uint8_t *pos) {
    printf("; %s %u, ", umbristal_on_cell(pos) ? "on" : "before", umbristal_cell(pos));
    if (umbristal_has_parentage(pos))
        printf("parentage %u", umbristal_parentage(pos));
    else
        printf("no parentage");
    puts(umbristal_hold(pos) ? ", held" : "");
}

static void call(struct store *s, uint8_t number, char *text)
{
    struct list list;
    uint8_t area[UMBRISTAL_DATA_MOST + 1] = { 0 };
    char letters[3], *colon = strchr(text, ':');
    long given = 0;
    if (colon) {
        *colon = 0;
        given = bytes_of(colon + (colon[1] == ' ' ? 2 : 1), area);
    }
    if (given < 0 || given > UMBRISTAL_DATA_MOST) {
        printf("these are no data\n");
        return;
    }
    if (!list_read(s, &list, text))
        return;
    uint64_t r = umbristal_call_sound(s->cat, s->cat_len, s->tab, s->tab_len, s->pos, sizeof s->pos, number, list.bytes, list.used, area,
                                      sizeof area);
    umbristal_letters(umbristal_status(r), letters);
    printf("%s", letters);
    if (umbristal_status(r) < UMBRISTAL_GB && number == UMBRISTAL_DLET)
        printf(" type %u, level %u, removed %u", umbristal_type(r), umbristal_level(r), (unsigned)umbristal_removed(r));
    else if (umbristal_status(r) < UMBRISTAL_GB) {
        printf(" cell %u, type %u, level %u, ", umbristal_cell(s->pos), umbristal_type(r), umbristal_level(r));
        data_print(area, umbristal_length(r));
    }
    position_print(s->pos);
    if (umbristal_status(r) < UMBRISTAL_GB && (number == UMBRISTAL_ISRT || number == UMBRISTAL_REPL) && given != umbristal_length(r))
        printf("(%ld bytes were given, and %u are the segment's)\n", given, umbristal_length(r));
}

static void report(const struct store *s, char *text) {
    struct list one, two;
    static uint8_t out[2 * UMBRISTAL_CELLS_MOST];
    char letters[3], *bar = strchr(text, '|');
    two.used = 0;
    if (bar)
        *bar = 0;
    if ((bar && !list_read(s, &two, bar + 1)) || !list_read(s, &one, text))
        return;
    uint64_t r = umbristal_report_nested(s->cat, s->cat_len, s->tab, s->tab_len, one.bytes, one.used, two.bytes, two.used, out, sizeof out);
    umbristal_letters(umbristal_status(r), letters);
    printf("%s %u shown:", letters, (unsigned)umbristal_hits(r));
    for (size_t i = 0; i < umbristal_hits(r); i++)
        printf(" %u", (unsigned)out[2 * i] << 8 | out[2 * i + 1]);
    putchar('\n');
}

/* Every segment by get-next through a position of its own, indented by its level. */
static void tree(struct store *s) {
    uint8_t pos[UMBRISTAL_POSITION_SIZE] = UMBRISTAL_POSITION_FRESH, area[UMBRISTAL_DATA_MOST];
    for (;;) {
        uint64_t r = umbristal_call_sound(s->cat, s->cat_len, s->tab, s->tab_len, pos, sizeof pos, UMBRISTAL_GN, UMBRISTAL_NO_LIST, 0, area,
                                          sizeof area);
        if (umbristal_status(r) >= UMBRISTAL_GB)
            return;
        printf("%4u %*s%u ", umbristal_cell(pos), 2 * (umbristal_level(r) - 1), "", umbristal_type(r));
        data_print(area, umbristal_length(r));
        putchar('\n');
    }
}

static void obey(struct store *s, char *line) {
    size_t n = strcspn(line, " ");
    char *rest = line[n] ? line + n + 1 : line + n;
    line[n] = 0;
    for (uint8_t i = UMBRISTAL_GU; i <= UMBRISTAL_DLET; i++)
        if (strcmp(line, CALLS[i]) == 0) {
            call(s, i, rest);
            return;
        }
    if (strcmp(line, "report") == 0)
        report(s, rest);
    else if (strcmp(line, "tree") == 0)
        tree(s);
    else if (strcmp(line, "fresh") == 0)
        memset(s->pos, 0, sizeof s->pos);
    else if (n)
        printf("%s: no such command; there are the nine calls, report, tree and fresh\n", line);
}

int main(int argc, char **argv) {
    static struct store s;
    char line[4096], letters[3];
    if (argc != 3) {
        fprintf(stderr, "console CAT.HDC TAB.HDT\n");
        return 2;
    }
    s.cat_len = file_read(argv[1], s.cat, sizeof s.cat);
    s.tab_len = file_read(argv[2], s.tab, sizeof s.tab);
    umbristal_letters(umbristal_table_check(s.cat, s.cat_len, s.tab, s.tab_len), letters);
    if (strcmp(letters, "--") != 0) {
        fprintf(stderr, "refused: %s\n", letters);
        return 1;
    }
    while (fgets(line, sizeof line, stdin)) {
        line[strcspn(line, "\n")] = 0;
        printf("> %s\n", line);
        obey(&s, line);
    }
    return fflush(stdout) == 0 ? 0 : 2;
}
