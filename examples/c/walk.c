/* walk CAT.HDC TAB.HDT: checks the two blocks once and lists the segments; then, on the bench table, reports, an insert, refusals, a hold and a delete. The
 * files are read and never written: what the calls change, they change in memory. With an installed library:
 *
 *   gcc -o walk walk.c $(pkg-config --cflags --libs umbristal)
 */
#include <stdio.h>
#include <stdlib.h>
#include <umbristal.h>

/* The types and fields of the bench catalogue: units, beneath them steps, beneath these tries. */
enum { UNIT = 1, STEP = 2, TRY = 3, UNIT_KEY = 1, STEP_KEY = 2, TRY_KIND = 3 };

/* [store] */
/* What a program holds of a store: catalogue, table, a position in it, and the area that data come and go by. Both blocks have room for the longest
 * and a byte more, by which a file that is too long shows. */
struct store {
    uint8_t cat[UMBRISTAL_CATALOGUE_MOST + 1], tab[UMBRISTAL_TABLE_MOST + 1];
    size_t cat_len, tab_len;
    uint8_t pos[UMBRISTAL_POSITION_SIZE];
    uint8_t area[UMBRISTAL_DATA_MOST];
};

struct list {
    uint8_t bytes[UMBRISTAL_LIST_SIZE];
    size_t used;
};
/* [end] */

/* [call] */
/* The sound call will do: the blocks were checked, the position was fresh then, and nothing but calls has changed them since. */
static uint64_t call(struct store *s, uint8_t number, const struct list *l)
{
    return umbristal_call_sound(s->cat, s->cat_len, s->tab, s->tab_len, s->pos, sizeof s->pos, number, l->bytes, l->used, s->area, sizeof s->area);
}
/* [end] */

/* [list] */
static void all(struct list *l, uint8_t type) { l->used = umbristal_list_all(l->bytes, l->used, type); }

static void equal(const struct store *s, struct list *l, uint8_t type, uint8_t field, const char *value, size_t value_len)
{
    l->used = umbristal_list_test(s->cat, s->cat_len, l->bytes, l->used, type, UMBRISTAL_OP_EQ, field, value, value_len);
}
/* [end] */

static size_t read_file(const char *path, uint8_t *to, size_t most)
{
    FILE *f = fopen(path, "rb");
    size_t n = f == NULL ? 0 : fread(to, 1, most + 1, f);
    if (f == NULL || ferror(f)) {
        perror(path);
        exit(2);
    }
    fclose(f);
    if (n > most) {
        fprintf(stderr, "%s: has more than %lu bytes\n", path, (unsigned long)most);
        exit(2);
    }
    return n;
}

static void show_data(const uint8_t *data, size_t length)
{
    for (size_t i = 0; i < length; i++)
        printf("%02X", data[i]);
    printf("\n");
}

/* What a call answered: the letters of its status and, if it was done, the segment's cell, type, level and data. */
static void show(const char *what, uint64_t r, const struct store *s)
{
    char letters[3];
    umbristal_letters(umbristal_status(r), letters);
    printf("%s%s", what, letters);
    if (umbristal_status(r) >= UMBRISTAL_GB) {
        printf("\n");
        return;
    }
    printf(" %u %u %u ", umbristal_cell(s->pos), umbristal_type(r), umbristal_level(r));
    show_data(s->area, umbristal_length(r));
}

/* [walk] */
static void walk(struct store *s)
{
    const struct list none = { { 0 }, 0 };
    uint64_t r;
    do { /* get-next with an empty list, until GB; after GB the position is fresh again */
        r = call(s, UMBRISTAL_GN, &none);
        show("", r, s);
    } while (umbristal_status(r) < UMBRISTAL_GB);
}
/* [end] */

/* [report] */
typedef uint64_t way(const uint8_t *cat, size_t cat_len, const uint8_t *tab, size_t tab_len, const uint8_t *list1, size_t list1_len,
                     const uint8_t *list2, size_t list2_len, uint8_t *out, size_t out_len);

/* The tries of kind P of unit 07. All three ways show the same. */
static void report(const char *name, way *made, const struct store *s)
{
    static uint8_t out[2 * UMBRISTAL_CELLS_MOST];
    struct list unit = { { 0 }, 0 }, tries = { { 0 }, 0 };
    equal(s, &unit, UNIT, UNIT_KEY, "07", 2);
    equal(s, &tries, TRY, TRY_KIND, "P", 1);
    uint64_t r = made(s->cat, s->cat_len, s->tab, s->tab_len, unit.bytes, unit.used, tries.bytes, tries.used, out, sizeof out);
    char letters[3];
    umbristal_letters(umbristal_status(r), letters);
    printf("%s report: %s, %u tries\n", name, letters, (unsigned)umbristal_hits(r));
    for (size_t i = 0; i < umbristal_hits(r); i++) {
        size_t cell = (size_t)out[2 * i] << 8 | out[2 * i + 1];
        printf("cell %lu: ", (unsigned long)cell);
        show_data(s->tab + umbristal_data_start(s->tab, s->tab_len, cell), umbristal_data_length(s->cat, s->cat_len, s->tab, s->tab_len, cell));
    }
}
/* [end] */

/* [change] */
static void change(struct store *s)
{
    struct list none = { { 0 }, 0 }, step = { { 0 }, 0 }, unit = { { 0 }, 0 }, tries = { { 0 }, 0 };
    equal(s, &step, UNIT, UNIT_KEY, "07", 2);
    equal(s, &step, STEP, STEP_KEY, "14", 2);
    all(&unit, UNIT);
    all(&tries, TRY);

    show("GU step 14 of unit 07: ", call(s, UMBRISTAL_GU, &step), s);
    s->area[0] = 'S';
    s->area[1] = '3';
    show("ISRT a try S3 beneath it: ", call(s, UMBRISTAL_ISRT, &tries), s);
    s->area[0] = '0';
    s->area[1] = '7';
    show("ISRT a second unit 07: ", call(s, UMBRISTAL_ISRT, &unit), s); /* II, and nothing has changed */
    show("DLET without hold: ", call(s, UMBRISTAL_DLET, &none), s);     /* DJ */
    show("GHU step 14 of unit 07: ", call(s, UMBRISTAL_GHU, &step), s);
    uint64_t r = call(s, UMBRISTAL_DLET, &none);
    show("DLET: ", r, s);
    printf("removed %u, %lu are left\n", (unsigned)umbristal_removed(r), (unsigned long)umbristal_count(s->tab, s->tab_len));
}
/* [end] */

int main(int argc, char **argv)
{
    static struct store s; /* all zeros, so its position is the fresh one */
    if (argc != 3) {
        fprintf(stderr, "usage: %s CAT.HDC TAB.HDT\n", argv[0]);
        return 2;
    }
    s.cat_len = read_file(argv[1], s.cat, UMBRISTAL_CATALOGUE_MOST);
    s.tab_len = read_file(argv[2], s.tab, UMBRISTAL_TABLE_MOST);
    /* [check] */
    uint8_t checked = umbristal_table_check(s.cat, s.cat_len, s.tab, s.tab_len);
    if (checked != UMBRISTAL_BLANK) {
        char letters[3];
        umbristal_letters(checked, letters);
        fprintf(stderr, "the blocks are refused: %s\n", letters);
        return 1;
    }
    /* [end] */
    walk(&s);
    report("nested", umbristal_report_nested, &s);
    report("joined", umbristal_report_joined, &s);
    report("plain", umbristal_report_plain, &s);
    change(&s);
    walk(&s); /* from where the delete has left the position */
    return fflush(stdout) == 0 ? 0 : 2;
}
