/* Numbers of a byte are handed over as bytes: what stands above them in a register is no part of them. A compiler may leave anything there, and does so where
 * a wider number is cut to a byte just before the call. */
#include <stdio.h>
#include <string.h>
#include <umbristal.h>

static const uint8_t cat[] = { 'H', 'D', 'C', 0, 1, 1, 1, 0, 0, 2, 1, 1, 1, 0, 0, 0, 1, 1, 1, 0 };
static volatile uint32_t above = 0x5A00; /* what stands above each byte */

static int failed(const char *what)
{
    printf("narrow: %s\n", what);
    return 1;
}

int main(void)
{
    uint8_t tab[8 + 3 * 3], pos[8] = UMBRISTAL_POSITION_FRESH, area[UMBRISTAL_DATA_MOST] = "k1", list[UMBRISTAL_LIST_SIZE];
    char letters[3];
    umbristal_letters((uint8_t)(above + UMBRISTAL_GE), letters);
    if (strcmp(letters, "GE") != 0)
        return failed("letters");
    umbristal_table_make(cat, sizeof cat, tab, sizeof tab);
    size_t used = umbristal_list_all(list, 0, (uint8_t)(above + 1));
    uint64_t r = umbristal_call(cat, sizeof cat, tab, sizeof tab, pos, sizeof pos, (uint8_t)(above + UMBRISTAL_ISRT), list, used, area, sizeof area);
    if (umbristal_status(r) != UMBRISTAL_BLANK || umbristal_count(tab, sizeof tab) != 1)
        return failed("insert");
    memset(pos, 0, sizeof pos);
    used = umbristal_list_test(cat, sizeof cat, list, 0, (uint8_t)(above + 1), (uint8_t)(above + UMBRISTAL_OP_EQ), (uint8_t)(above + 1), "k", 1);
    r = umbristal_call(cat, sizeof cat, tab, sizeof tab, pos, sizeof pos, (uint8_t)(above + UMBRISTAL_GN), list, used, area, sizeof area);
    if (umbristal_status(r) != UMBRISTAL_BLANK || umbristal_length(r) != 2)
        return failed("get-next");
    r = umbristal_call_sound(cat, sizeof cat, tab, sizeof tab, pos, sizeof pos, (uint8_t)(above + UMBRISTAL_GU), list, used, area, sizeof area);
    if (umbristal_status(r) != UMBRISTAL_BLANK || umbristal_removed(r) != 0 || umbristal_count(tab, sizeof tab) != 1)
        return failed("get-unique");
    return 0;
}
