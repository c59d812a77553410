/* The bodies that the header shows against the functions of the library: a call may be taken in from the header, a call by address goes to the library. */
#include <stdio.h>
#include <umbristal.h>

static uint64_t seed = 14;

static uint64_t drawn(void)
{
    seed = seed * 6364136223846793005u + 1442695040888963407u;
    return seed ^ seed >> 29;
}

typedef uint8_t byte_of_result(uint64_t result);
typedef uint32_t number_of_result(uint64_t result);
typedef uint8_t byte_of_position(const uint8_t pos[8]);
typedef uint16_t number_of_position(const uint8_t pos[8]);

static byte_of_result *volatile status = umbristal_status, *volatile type = umbristal_type, *volatile level = umbristal_level,
                               *volatile length = umbristal_length;
static number_of_result *volatile removed = umbristal_removed, *volatile hits = umbristal_hits;
static byte_of_position *volatile on_cell = umbristal_on_cell, *volatile has_parentage = umbristal_has_parentage, *volatile hold = umbristal_hold;
static number_of_position *volatile cell = umbristal_cell, *volatile parentage = umbristal_parentage;

static int result_agrees(uint64_t r)
{
    return umbristal_status(r) == status(r) && umbristal_type(r) == type(r) && umbristal_level(r) == level(r) && umbristal_length(r) == length(r)
           && umbristal_removed(r) == removed(r) && umbristal_hits(r) == hits(r);
}

static int position_agrees(const uint8_t *p)
{
    return umbristal_on_cell(p) == on_cell(p) && umbristal_has_parentage(p) == has_parentage(p) && umbristal_hold(p) == hold(p)
           && umbristal_cell(p) == cell(p) && umbristal_parentage(p) == parentage(p);
}

int main(void)
{
    for (long i = 0; i < 1000000; i++) {
        uint64_t r = drawn();
        uint8_t pos[8];
        for (int k = 0; k < 8; k++)
            pos[k] = (uint8_t)(r >> 8 * k) % (k % 3 == 0 ? 3 : 256); /* bytes 0, 3 and 6 are often 0 and 1 */
        if (!result_agrees(r) || !position_agrees(pos)) {
            printf("a body of the header answers otherwise than the library: %016lX\n", (unsigned long)r);
            return 1;
        }
    }
    return 0;
}
