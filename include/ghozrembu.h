/*
 * ghozrembu.h: plans of strictly periodic partitions, judged, searched, built into frame tables and dispatched.
 *
 * The library is target/lib/libghozrembu.a, written by `./ghozrembu library` from code that is proved
 * against its contracts. It links into C and Rust programs on x86-64 Linux, uses no heap, reads and writes no file,
 * and keeps nothing between calls.
 *
 *     gcc -O2 -Iinclude my.c target/lib/libghozrembu.a -o my
 *
 * Bytes go in as a pointer and a length. Every call takes every content and every length and answers with a number;
 * none of them asks anything of the values. What C has to see to itself:
 *   - a pointer is not NULL, also where its length is 0, and `length` bytes stand behind it;
 *   - a lent buffer or position overlaps no other argument of the same call.
 *
 * Sheets, plans and tables are packed most significant bit first, with no gap between fields, and the last byte is
 * filled with zero bits. Times are whole ticks from 0.
 *
 * A number other than GHOZREMBU_DONE leaves buffers and position as at entry, and every other result is 0 unless
 * the call below says more. Bytes of a buffer behind what is written keep their values.
 */
#ifndef GHOZREMBU_H
#define GHOZREMBU_H

#include <stddef.h>
#include <stdint.h>

#ifdef __cplusplus
extern "C" {
#endif

/* Numbers returned. 1 to 8: that constraint, C1 to C8, is the first broken. */
enum {
    GHOZREMBU_DONE = 0,       /* accepted, found, built, sound or stepped */
    GHOZREMBU_CUT_SHORT = 10, /* the sheet ends before a record it must hold is complete */
    GHOZREMBU_VERSION = 11,   /* version is not 1, or spare is 1 */
    GHOZREMBU_COUNTS = 12,    /* M, N, X or K is outside its range */
    GHOZREMBU_DIAGONAL = 13,  /* a diagonal delay is not 0 */
    GHOZREMBU_PARTITION = 14, /* a partition has T or B of 0, or B > T */
    GHOZREMBU_EXCLUSION = 15, /* an exclusion breaks its rule */
    GHOZREMBU_CHAIN = 16,     /* a chain breaks its rule, its length included */
    GHOZREMBU_LEFT_OVER = 17, /* bytes left over, or fill bits not zero */
    GHOZREMBU_PLAN = 18,      /* plan of the wrong length, or fill bits not zero */
    GHOZREMBU_MODULE = 20,    /* module number not below M */
    GHOZREMBU_FRAME = 21,     /* the frame is too large for a table: above GHOZREMBU_LARGEST_FRAME */
    GHOZREMBU_SLOTS = 22,     /* more than GHOZREMBU_MOST_SLOTS slots */
    GHOZREMBU_BUFFER = 23,    /* the lent buffer is shorter than a plan (search) or than the table (build) */
    GHOZREMBU_TABLE = 24,     /* table not sound; for a step: its byte count, its frame or its slot count is wrong */
    GHOZREMBU_POSITION = 25,  /* a position that no step leads to */
    GHOZREMBU_NONE = 26,      /* no plan exists */
    GHOZREMBU_STOPPED = 27    /* the budget is used up */
};
/* 19 is given by calls on decoded values only, and those are not part of this library. 9 is not used. */

/* What a step answers in a tick in which no partition runs. */
#define GHOZREMBU_IDLE 64

/* Sizes: buffers that are long enough for every sheet. */
#define GHOZREMBU_LONGEST_SHEET 2142
#define GHOZREMBU_LONGEST_PLAN 160
#define GHOZREMBU_LONGEST_TABLE 6149
#define GHOZREMBU_LARGEST_FRAME 16777215
#define GHOZREMBU_MOST_SLOTS 1024

/* The judge's answer: a number and two places. C1 and C3: the lowest partition, 0. C2: the first pair. C4 and C5: the
 * lowest module, 0. C6 and C7: the lowest exclusion entry counted from 0, 0. C8: the lowest chain, 0. Else 0, 0. */
typedef struct {
    uint8_t number;
    uint32_t first;
    uint32_t second;
} ghozrembu_answer;

/* The search's answer: a number and the tries made. */
typedef struct {
    uint8_t number;
    uint32_t tries;
} ghozrembu_found;

/* The builder's answer: a number and the table's length in bytes. */
typedef struct {
    uint8_t number;
    size_t length;
} ghozrembu_built;

/* A step's answer: a number and the partition that runs in this tick, or GHOZREMBU_IDLE. */
typedef struct {
    uint8_t number;
    uint8_t partition;
} ghozrembu_stepped;

/* Where a dispatcher stands in its table: the tick of the frame, and the slot that it is in or waits for. */
typedef struct {
    uint32_t tick;
    uint32_t slot;
} ghozrembu_position;

/* The fresh position, from which a table is stepped: ghozrembu_position at = GHOZREMBU_FRESH; */
#define GHOZREMBU_FRESH {0, 0}

/* Judges a plan: DONE exactly when C1 to C8 all hold, over all ticks; else the first broken one with its places.
 * Numbers, in order: 10 to 17 for the sheet, 18 for the plan, 1 to 8. */
ghozrembu_answer ghozrembu_judge(const uint8_t *sheet, size_t sheet_length, const uint8_t *plan, size_t plan_length);

/* Searches the first accepted plan within a budget of tries and writes it at the front of the buffer (20 bits a
 * partition, filled to a byte). DONE: found; NONE: there is no accepted plan; both with the tries made. STOPPED:
 * neither is known after `budget` tries, and `tries` is the budget.
 * Numbers, in order: 10 to 17 for the sheet, 23, then 26 or 27. */
ghozrembu_found ghozrembu_search(const uint8_t *sheet, size_t sheet_length, uint32_t budget, uint8_t *buffer,
                                 size_t buffer_length);

/* Builds the frame table of one module of an accepted plan at the front of the buffer and gives its length.
 * Numbers, in order: as the judge, then 20 to 23. */
ghozrembu_built ghozrembu_build(const uint8_t *sheet, size_t sheet_length, const uint8_t *plan, size_t plan_length,
                                size_t module, uint8_t *buffer, size_t buffer_length);

/* Says whether bytes are a sheet: 0, or 10 to 17. */
uint8_t ghozrembu_sheet_number(const uint8_t *sheet, size_t sheet_length);

/* Says whether bytes are a sound frame table: 0, or 24. Test a table once before it is stepped. */
uint8_t ghozrembu_table_number(const uint8_t *table, size_t table_length);

/* One tick of the dispatcher: answers which partition runs, and moves the position to the next tick. Reads the table's
 * head and one slot. A sound table stepped from the fresh position on names in every tick, for ever, the partition
 * whose execution covers it. Numbers, in order: 24, 25. */
ghozrembu_stepped ghozrembu_step(const uint8_t *table, size_t table_length, ghozrembu_position *position);

#ifdef __cplusplus
}
#endif

#endif
