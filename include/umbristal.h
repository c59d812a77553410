/* Umbristal: a hierarchical store that speaks DL/I. What C and other languages link: the checks, the maker of empty tables, the nine calls, the
 * reports, and helpers. What the calls do is told in the manual, docs/CALLS.md (installed: share/doc/umbristal); R33 and the like are rules of it.
 *
 * Every slice is lent as a pointer and its length, in bytes. For each call the caller sees to it that
 *   - each pointer is not null and has as many bytes behind it as its length says; a length of 0 is fine (with any pointer but null);
 *   - the slices of one call do not overlap.
 * Nothing else is asked, and what the bytes are does not matter: on any bytes, each function ends with a status of the table below.
 * The one exception is umbristal_call_sound, with its twin for COBOL, which says below what it asks.
 * No function keeps a pointer, allocates, or holds anything between two calls; several threads may call with blocks of their own. */
#ifndef UMBRISTAL_H
#define UMBRISTAL_H

#include <stddef.h>
#include <stdint.h>

#ifdef __cplusplus
extern "C" {
#endif

#define UMBRISTAL_VERSION "0.4.0"
#define UMBRISTAL_VERSION_MAJOR 0
#define UMBRISTAL_VERSION_MINOR 4
#define UMBRISTAL_VERSION_PATCH 0

/* The statuses, by number. Below 10 the call was done; 10 makes the position fresh, 11 and 12 clear the hold, and none of the three changes anything
 * else; 20 and above change nothing. */
enum umbristal_statuses {
    UMBRISTAL_BLANK = 0, /* done */
    UMBRISTAL_GA = 1,    /* get-next, empty list: the level found is smaller than the one left */
    UMBRISTAL_GK = 2,    /* the same level, another type */
    UMBRISTAL_GB = 10,   /* get-next, empty list: no cell left; the next one begins at the first root */
    UMBRISTAL_GE = 11,   /* no match; ISRT without parent */
    UMBRISTAL_GP = 12,   /* get-next within parent: no parentage */
    UMBRISTAL_CX = 20,   /* bad catalogue */
    UMBRISTAL_TX = 21,   /* bad table */
    UMBRISTAL_PX = 22,   /* bad position */
    UMBRISTAL_AD = 23,   /* call number not 1 to 9 */
    UMBRISTAL_AC = 24,   /* list: a type that is none, or not beneath the one before it */
    UMBRISTAL_AJ = 25,   /* list: operator, field number or value missing or wrong; or a list where none may be */
    UMBRISTAL_AK = 26,   /* list: a field that is none, or of another type */
    UMBRISTAL_AH = 27,   /* ISRT with an empty list */
    UMBRISTAL_AB = 28,   /* area too short; of a report: out too short */
    UMBRISTAL_DJ = 29,   /* REPL or DLET without hold */
    UMBRISTAL_DA = 30,   /* REPL changes a key byte */
    UMBRISTAL_II = 31,   /* ISRT: a twin has this unique key */
    UMBRISTAL_FX = 32,   /* ISRT: no cell is free */
    UMBRISTAL_PD = 33    /* ISRT: a packed key that is no number */
};

/* The faults of DBD statements, by number (R78); beside them umbristal_dbd_read answers UMBRISTAL_CX and UMBRISTAL_AB. */
enum umbristal_dbd_faults {
    UMBRISTAL_DBD_STATEMENT = 1, /* no statement, or none that can stand here; a second key */
    UMBRISTAL_DBD_NAME = 2,      /* a name that a segment has already, or a field of the same segment */
    UMBRISTAL_DBD_PARENT = 3     /* PARENT= a name that no segment before has */
};

/* The calls, by number. */
enum umbristal_calls {
    UMBRISTAL_GU = 1,
    UMBRISTAL_GN = 2,
    UMBRISTAL_GNP = 3,
    UMBRISTAL_GHU = 4,
    UMBRISTAL_GHN = 5,
    UMBRISTAL_GHNP = 6,
    UMBRISTAL_ISRT = 7,
    UMBRISTAL_REPL = 8,
    UMBRISTAL_DLET = 9
};

/* The operators of an argument, by number; the field of the segment is on the left. */
enum umbristal_operators {
    UMBRISTAL_OP_NONE = 0,
    UMBRISTAL_OP_EQ = 1,
    UMBRISTAL_OP_NE = 2,
    UMBRISTAL_OP_LT = 3,
    UMBRISTAL_OP_LE = 4,
    UMBRISTAL_OP_GT = 5,
    UMBRISTAL_OP_GE = 6
};

/* Limits. An area of UMBRISTAL_DATA_MOST bytes is long enough for every catalogue. */
#define UMBRISTAL_TYPES_MOST 32
#define UMBRISTAL_FIELDS_MOST 64
#define UMBRISTAL_LEVELS_MOST 15
#define UMBRISTAL_DATA_MOST 120
#define UMBRISTAL_CELLS_MOST 4096
#define UMBRISTAL_CATALOGUE_MOST 520
#define UMBRISTAL_TABLE_MOST 495624
#define UMBRISTAL_NAMES_MOST 784 /* a list of names */
#define UMBRISTAL_DBD_MOST 4651  /* the statements that umbristal_dbd_write writes */

/* The position's block: 8 bytes. Byte 0: place, 0 in the gap before a cell, 1 on a cell. Bytes 1 and 2: that cell's number, high byte
 * first. Byte 3: parentage, 0 absent, 1 present. Bytes 4 and 5: its cell number, 0 if absent. Byte 6: hold, 0 or 1. Byte 7: zero.
 * Eight zeros are the fresh position. A block of another length or with any other byte is a bad position. */
#define UMBRISTAL_POSITION_SIZE 8
#define UMBRISTAL_POSITION_FRESH { 0, 0, 0, 0, 0, 0, 0, 0 }

/* An empty list is this pointer with the length 0. */
#define UMBRISTAL_NO_LIST ((const uint8_t *)"")

/* 0, or UMBRISTAL_CX. */
uint8_t umbristal_catalogue_check(const uint8_t *cat, size_t cat_len);

/* 0, UMBRISTAL_CX or UMBRISTAL_TX. */
uint8_t umbristal_table_check(const uint8_t *cat, size_t cat_len, const uint8_t *tab, size_t tab_len);

/* Writes an empty table over the whole slice and answers 0; or UMBRISTAL_CX, or UMBRISTAL_TX where the length fits no number of cells,
 * and then nothing is written. umbristal_table_size tells the length. */
uint8_t umbristal_table_make(const uint8_t *cat, size_t cat_len, uint8_t *tab, size_t tab_len);

/* The call of this number. The table, the position's block and the area are left as the call leaves them; the rest of the answer
 * comes back in one number, which umbristal_status and its like take apart. The area has umbristal_area_size bytes or more, whichever
 * segment is meant; DLET takes any area. */
uint64_t umbristal_call(const uint8_t *cat, size_t cat_len, uint8_t *tab, size_t tab_len, uint8_t *pos, size_t pos_len, uint8_t number,
                        const uint8_t *list, size_t list_len, uint8_t *area, size_t area_len);

/* The same without testing catalogue, table and position again, and so much faster on a large table. Only for a catalogue and a table
 * that umbristal_table_check has answered with 0, and a position that is fresh or that umbristal_call has not answered with
 * UMBRISTAL_PX on them: each as it was then, but for what calls on that same table and that same position have changed since. A second
 * position on the same table is to be made fresh once a call through another one has inserted or deleted: its cells may be other ones then, and
 * a test would not show it. With anything else the call may read and write outside the slices. List, area and number may be anything here too. */
uint64_t umbristal_call_sound(const uint8_t *cat, size_t cat_len, uint8_t *tab, size_t tab_len, uint8_t *pos, size_t pos_len,
                              uint8_t number, const uint8_t *list, size_t list_len, uint8_t *area, size_t area_len);

/* The reports: every segment that matches list 1 and list 2 as one list, so those beneath a segment that matches list 1. Three ways to
 * the same answer, byte for byte: nested (GN with list 1, and for each segment got GNP with list 2), joined (GN with both lists as one)
 * and plain (every cell tested). Each hit's cell number goes to the front of `out`, 2 bytes, high byte first, in cell order; the bytes
 * behind the hits stay.
 * Catalogue, table and lists may be anything; they are only read. Refused are, in this order: a bad catalogue (CX), a bad table (TX), the
 * first fault of list 1 read by itself (AC, AJ, AK), an empty list 1 or list 2 (AC), the first fault of list 2 read on behind list 1, whose
 * first type must lie beneath list 1's last (AC, AJ, AK), and an out shorter than 2 bytes a hit (AB). A refusal writes nothing and says
 * 0 hits. An out of 2 bytes for each segment of the table is always long enough. */
uint64_t umbristal_report_nested(const uint8_t *cat, size_t cat_len, const uint8_t *tab, size_t tab_len, const uint8_t *list1,
                                 size_t list1_len, const uint8_t *list2, size_t list2_len, uint8_t *out, size_t out_len);
uint64_t umbristal_report_joined(const uint8_t *cat, size_t cat_len, const uint8_t *tab, size_t tab_len, const uint8_t *list1,
                                 size_t list1_len, const uint8_t *list2, size_t list2_len, uint8_t *out, size_t out_len);
uint64_t umbristal_report_plain(const uint8_t *cat, size_t cat_len, const uint8_t *tab, size_t tab_len, const uint8_t *list1,
                                size_t list1_len, const uint8_t *list2, size_t list2_len, uint8_t *out, size_t out_len);

/* DBD statements (R73 to R84). Reads a text of any length, and writes the catalogue to the front of `cat` and its list of names to the front of `names`;
 * UMBRISTAL_CATALOGUE_MOST and UMBRISTAL_NAMES_MOST bytes are always enough. In the result umbristal_status is 0, a fault of the text, UMBRISTAL_CX where
 * a line breaks a rule of catalogues, or UMBRISTAL_AB where the text is right and a buffer too short; of a fault and CX umbristal_dbd_line is the first bad
 * line, counted from 1, the end counting as one. Of 0 umbristal_dbd_types and umbristal_dbd_fields are how many there are, and
 * umbristal_dbd_catalogue_size and umbristal_dbd_names_size how many bytes were written. Bytes behind them stay; but for 0 nothing is written. */
uint64_t umbristal_dbd_read(const uint8_t *text, size_t text_len, uint8_t *cat, size_t cat_len, uint8_t *names, size_t names_len);

/* Writes the statements of a catalogue and its names to the front of `text`; UMBRISTAL_DBD_MOST bytes are always enough. Reading them gives both blocks
 * again. In the result umbristal_status is 0, UMBRISTAL_CX for blocks that no text reads to, or UMBRISTAL_AB; umbristal_dbd_length is how many bytes were
 * written. Bytes behind them stay; but for 0 nothing is written. */
uint64_t umbristal_dbd_write(const uint8_t *cat, size_t cat_len, const uint8_t *names, size_t names_len, uint8_t *text, size_t text_len);

#define umbristal_dbd_line(result) ((uint32_t)((uint64_t)(result) >> 32))
#define umbristal_dbd_length(result) ((size_t)((uint64_t)(result) >> 32))
#define umbristal_dbd_types(result) ((uint8_t)((uint64_t)(result) >> 8))
#define umbristal_dbd_fields(result) ((uint8_t)((uint64_t)(result) >> 16))
#define umbristal_dbd_catalogue_size(result) ((size_t)8 + 8 * (size_t)umbristal_dbd_types(result) + 4 * (size_t)umbristal_dbd_fields(result))
#define umbristal_dbd_names_size(result) ((size_t)16 + 8 * (size_t)umbristal_dbd_types(result) + 8 * (size_t)umbristal_dbd_fields(result))

/* The helpers below are functions of the library, for every language. Those with a body here may be taken in by a C or C++ compiler instead: the body
 * says what the function does. They need no check before them: on any bytes they answer, and read nothing outside of what is lent. */
#if defined(__cplusplus) || (defined(__STDC_VERSION__) && __STDC_VERSION__ >= 199901L && !defined(__GNUC_GNU_INLINE__))
#define UMBRISTAL_BODY(body) body
#define UMBRISTAL_HELPER inline
#else
#define UMBRISTAL_BODY(body) ;
#define UMBRISTAL_HELPER
#endif

/* The parts of a call's result. Type, level and length are those of the segment got, inserted, replaced or deleted; removed is how many
 * segments DLET took away. For status 10 and above all four are 0. Of a report there are the status and hits, how many segments it shows. */
UMBRISTAL_HELPER uint8_t umbristal_status(uint64_t result) UMBRISTAL_BODY({ return (uint8_t)result; })
UMBRISTAL_HELPER uint8_t umbristal_type(uint64_t result) UMBRISTAL_BODY({ return (uint8_t)(result >> 8); })
UMBRISTAL_HELPER uint8_t umbristal_level(uint64_t result) UMBRISTAL_BODY({ return (uint8_t)(result >> 16); })
UMBRISTAL_HELPER uint8_t umbristal_length(uint64_t result) UMBRISTAL_BODY({ return (uint8_t)(result >> 24); })
UMBRISTAL_HELPER uint32_t umbristal_removed(uint64_t result) UMBRISTAL_BODY({ return (uint16_t)(result >> 32); })
UMBRISTAL_HELPER uint32_t umbristal_hits(uint64_t result) UMBRISTAL_BODY({ return (uint16_t)(result >> 32); })

/* The parts of a position's block: 1 where the place is on a cell and 0 where it is before one, that cell; 1 where there is a parentage, its cell (0
 * where there is none); 1 where there is a hold. */
UMBRISTAL_HELPER uint8_t umbristal_on_cell(const uint8_t pos[8]) UMBRISTAL_BODY({ return pos[0] == 1; })
UMBRISTAL_HELPER uint16_t umbristal_cell(const uint8_t pos[8]) UMBRISTAL_BODY({ return (uint16_t)(pos[1] << 8 | pos[2]); })
UMBRISTAL_HELPER uint8_t umbristal_has_parentage(const uint8_t pos[8]) UMBRISTAL_BODY({ return pos[3] == 1; })
UMBRISTAL_HELPER uint16_t umbristal_parentage(const uint8_t pos[8]) UMBRISTAL_BODY({ return (uint16_t)(pos[4] << 8 | pos[5]); })
UMBRISTAL_HELPER uint8_t umbristal_hold(const uint8_t pos[8]) UMBRISTAL_BODY({ return pos[6] == 1; })

#undef UMBRISTAL_BODY
#undef UMBRISTAL_HELPER

/* The two letters of a status number and a zero behind them: "--" for blank, "??" for a number that is no status. */
void umbristal_letters(uint8_t status, char letters[3]);

/* How long an area must be. Of a catalogue that a check would refuse, this and the next number mean nothing; of such a table, neither do the next but one
 * and a data_start. */
uint8_t umbristal_area_size(const uint8_t *cat, size_t cat_len);

/* How many bytes a table of so many cells has; 0 for more than UMBRISTAL_CELLS_MOST. */
size_t umbristal_table_size(const uint8_t *cat, size_t cat_len, size_t cells);

/* How many segments a table has. */
size_t umbristal_count(const uint8_t *tab, size_t tab_len);

/* The segment in a cell: its type, at which byte of the table its data begin, and how many bytes they are. All 0 where there is no segment. Data that
 * would not lie within the table have the length 0. */
uint8_t umbristal_cell_type(const uint8_t *tab, size_t tab_len, size_t cell);
size_t umbristal_data_start(const uint8_t *tab, size_t tab_len, size_t cell);
uint8_t umbristal_data_length(const uint8_t *cat, size_t cat_len, const uint8_t *tab, size_t tab_len, size_t cell);

/* Argument lists, argument by argument. The buffer has UMBRISTAL_LIST_SIZE bytes, room for every list that can be right. Each function is handed how many
 * bytes the list has so far, 0 at first, and answers how many it has then: pass buffer and number to a call. An argument without a test names all
 * segments of a type; one with a test has an operator from 1 to 6, a field of that type and a value of the field's length. What has no room, an operator
 * of 0, and a value of another length than the field's (a field that is none has 0 bytes) spoil the list: every call refuses it with UMBRISTAL_AC,
 * whatever is added afterwards. */
#define UMBRISTAL_LIST_SIZE 1845
size_t umbristal_list_all(uint8_t list[UMBRISTAL_LIST_SIZE], size_t used, uint8_t code);
size_t umbristal_list_test(const uint8_t *cat, size_t cat_len, uint8_t list[UMBRISTAL_LIST_SIZE], size_t used, uint8_t code,
                           uint8_t operation, uint8_t field, const void *value, size_t value_len);

/* The functions above for languages that pass by reference and take no result but an int, as COBOL does: the copybook umbristal.cpy declares every
 * block as it must be. Each block is lent by its address alone and must have the size that stands here. How much of each counts is said in `ask`, and the
 * bytes behind that stay: byte 0, the call's number; then numbers of four bytes, high byte first, the lengths of catalogue (from byte 1), table (5),
 * list or list 1 (9), list 2 (13), and of area or out (17). A length above the block's size counts as that size. Where a block must be no longer than
 * something, it has a byte more than that, so that what is too long is refused.
 * The result is told in 8 bytes. Bytes 0 and 1: the letters of the status, two spaces for blank. Byte 2: its number. Byte 3: type. Byte 4: level. Byte 5:
 * length. Bytes 6 and 7: removed, or hits, high byte first. */
#define UMBRISTAL_ASK_SIZE 21
#define UMBRISTAL_TOLD_SIZE 8
void umbristal_cobol_check(const uint8_t ask[UMBRISTAL_ASK_SIZE], const uint8_t cat[521], const uint8_t tab[495625],
                           uint8_t told[UMBRISTAL_TOLD_SIZE]);
void umbristal_cobol_make(const uint8_t ask[UMBRISTAL_ASK_SIZE], const uint8_t cat[521], uint8_t tab[495625],
                          uint8_t told[UMBRISTAL_TOLD_SIZE]);
void umbristal_cobol_call(const uint8_t ask[UMBRISTAL_ASK_SIZE], const uint8_t cat[521], uint8_t tab[495625],
                          uint8_t pos[UMBRISTAL_POSITION_SIZE], const uint8_t list[1846], uint8_t area[120],
                          uint8_t told[UMBRISTAL_TOLD_SIZE]);
void umbristal_cobol_call_sound(const uint8_t ask[UMBRISTAL_ASK_SIZE], const uint8_t cat[521], uint8_t tab[495625],
                                uint8_t pos[UMBRISTAL_POSITION_SIZE], const uint8_t list[1846], uint8_t area[120],
                                uint8_t told[UMBRISTAL_TOLD_SIZE]);
void umbristal_cobol_report_nested(const uint8_t ask[UMBRISTAL_ASK_SIZE], const uint8_t cat[521], const uint8_t tab[495625],
                                   const uint8_t list1[1846], const uint8_t list2[1846], uint8_t out[8192],
                                   uint8_t told[UMBRISTAL_TOLD_SIZE]);
void umbristal_cobol_report_joined(const uint8_t ask[UMBRISTAL_ASK_SIZE], const uint8_t cat[521], const uint8_t tab[495625],
                                   const uint8_t list1[1846], const uint8_t list2[1846], uint8_t out[8192],
                                   uint8_t told[UMBRISTAL_TOLD_SIZE]);
void umbristal_cobol_report_plain(const uint8_t ask[UMBRISTAL_ASK_SIZE], const uint8_t cat[521], const uint8_t tab[495625],
                                  const uint8_t list1[1846], const uint8_t list2[1846], uint8_t out[8192],
                                  uint8_t told[UMBRISTAL_TOLD_SIZE]);

#ifdef __cplusplus
}
#endif

#endif
