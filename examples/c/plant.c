/* plant FOLDER UNIT STEP: records a step of a unit. It loads CAT.HDC and TAB.HDT of the folder, or makes them, puts in the unit where it is not there yet and
 * the step beneath it, and saves both blocks. A unit and a step are three bytes, of which the first two are the key: plant . 07A 14T
 *
 *   gcc -o plant plant.c $(pkg-config --cflags umbristal) $(pkg-config --variable=archive umbristal)
 */
#include <errno.h>
#include <stdio.h>
#include <stdlib.h>
#include <string.h>
#include <umbristal.h>

enum { UNIT = 1, STEP = 2, UNIT_KEY = 1, CELLS = 100 };

/* [catalogue] */
/* Units and beneath them steps, three bytes each. The first two are its unique key, and also a field, so that a list can ask for them. */
static const uint8_t catalogue[] = {
    'H', 'D', 'C', 0, 1, 2, 2, 0, /* version 1, two types, two fields */
    0,   3,   1,   1, 2, 0, 0, 0, /* type 1, unit: no parent, 3 bytes, unique key from byte 1 on, 2 bytes */
    1,   3,   1,   1, 2, 0, 0, 0, /* type 2, step: beneath type 1 */
    1,   1,   2,   0,             /* field 1: of type 1, from byte 1 on, 2 bytes */
    2,   1,   2,   0,             /* field 2: of type 2 */
};
/* [end] */

struct store {
    uint8_t cat[UMBRISTAL_CATALOGUE_MOST + 1], tab[UMBRISTAL_TABLE_MOST + 1];
    size_t cat_len, tab_len;
    uint8_t pos[UMBRISTAL_POSITION_SIZE];
};

static void stop(const char *what, uint8_t status)
{
    char letters[3];
    umbristal_letters(status, letters);
    fprintf(stderr, "plant: %s: %s\n", what, letters);
    exit(1);
}

/* [make] */
static void make(struct store *s)
{
    memcpy(s->cat, catalogue, sizeof catalogue);
    s->cat_len = sizeof catalogue;
    s->tab_len = umbristal_table_size(s->cat, s->cat_len, CELLS);
    uint8_t status = umbristal_table_make(s->cat, s->cat_len, s->tab, s->tab_len);
    if (status != UMBRISTAL_BLANK)
        stop("no table", status);
}
/* [end] */

/* A file that is not there is no block; one that cannot be read ends the program. */
static int load(const char *path, uint8_t *to, size_t room, size_t *len)
{
    FILE *f = fopen(path, "rb");
    if (f == NULL && errno == ENOENT)
        return 0;
    *len = f == NULL ? 0 : fread(to, 1, room, f);
    if (f == NULL || ferror(f)) {
        perror(path);
        exit(2);
    }
    fclose(f);
    return 1;
}

/* Written beside and then renamed, so that a crash leaves the old block or the new one. */
static void save(const char *path, const uint8_t *block, size_t len)
{
    char beside[4096];
    snprintf(beside, sizeof beside, "%s.NEW", path);
    FILE *f = fopen(beside, "wb");
    if (f == NULL || fwrite(block, 1, len, f) != len || fclose(f) != 0 || rename(beside, path) != 0) {
        perror(path);
        exit(2);
    }
}

static uint64_t call(struct store *s, uint8_t number, const uint8_t *list, size_t used, const char *data)
{
    uint8_t area[UMBRISTAL_DATA_MOST] = { 0 };
    memcpy(area, data, strlen(data));
    return umbristal_call_sound(s->cat, s->cat_len, s->tab, s->tab_len, s->pos, sizeof s->pos, number, list, used, area, sizeof area);
}

/* [record] */
/* The whole path is named at each insert, so that the place does not matter. */
static void record(struct store *s, const char *unit, const char *step)
{
    uint8_t list[UMBRISTAL_LIST_SIZE], all_units[UMBRISTAL_LIST_SIZE];
    size_t used = umbristal_list_test(s->cat, s->cat_len, list, 0, UNIT, UMBRISTAL_OP_EQ, UNIT_KEY, unit, 2);
    uint8_t status = umbristal_status(call(s, UMBRISTAL_GU, list, used, ""));
    if (status == UMBRISTAL_GE)
        status = umbristal_status(call(s, UMBRISTAL_ISRT, all_units, umbristal_list_all(all_units, 0, UNIT), unit));
    if (status != UMBRISTAL_BLANK)
        stop(unit, status);
    used = umbristal_list_all(list, used, STEP);
    status = umbristal_status(call(s, UMBRISTAL_ISRT, list, used, step));
    if (status != UMBRISTAL_BLANK)
        stop(step, status);
}
/* [end] */

int main(int argc, char **argv)
{
    static struct store s; /* all zeros, so its position is the fresh one */
    char cat[4000], tab[4000];
    if (argc != 4 || strlen(argv[1]) > 3900 || strlen(argv[2]) != 3 || strlen(argv[3]) != 3) {
        fprintf(stderr, "usage: plant FOLDER UNIT STEP, a unit and a step of three bytes each\n");
        return 2;
    }
    sprintf(cat, "%s/CAT.HDC", argv[1]);
    sprintf(tab, "%s/TAB.HDT", argv[1]);
    int loaded = load(cat, s.cat, sizeof s.cat, &s.cat_len) + load(tab, s.tab, sizeof s.tab, &s.tab_len);
    if (loaded == 0)
        make(&s);
    uint8_t status = umbristal_table_check(s.cat, s.cat_len, s.tab, s.tab_len);
    if (status != UMBRISTAL_BLANK)
        stop("the blocks are refused", status);
    record(&s, argv[2], argv[3]);
    save(cat, s.cat, s.cat_len);
    save(tab, s.tab, s.tab_len);
    printf("%lu segments\n", (unsigned long)umbristal_count(s.tab, s.tab_len));
    return 0;
}
