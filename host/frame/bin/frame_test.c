/*
 * Host test of the frame reader and writer in C.
 *
 * What is expected stands in the tables below, which are written from document 01. No
 * expectation comes from the library.
 *
 * Each call is made four times, with its bytes in four kinds of memory. The library is not
 * compiled with the address sanitizer, so pages without access stand next to the bytes as well:
 * a stray access of the library itself ends the test there.
 */
#define _DEFAULT_SOURCE /* for MAP_ANONYMOUS */

#include "jizkorma.h"

#include <stdbool.h>
#include <stddef.h>
#include <stdint.h>
#include <stdio.h>
#include <stdlib.h>
#include <string.h>
#include <sys/mman.h>
#include <unistd.h>

#define COUNT(array) (sizeof(array) / sizeof((array)[0]))

/* The fields, each by the number of its bit. */
enum { STATION, NUMBER, POINT, ACTION, VALUE, REFUSAL, FIELDS };

static const char *const field_name[FIELDS] = {"station", "number", "point",
                                               "action",  "value",  "refusal"};
static const size_t field_width[FIELDS] = {1, 3, 4, 1, 4, 1};

/* ---- Tables ---------------------------------------------------------------------------- */

/* The six kinds, with one frame of each. Offset 0: the map lacks the field. */
struct kind {
    const char *name;
    uint32_t map;
    size_t length;
    size_t offset[FIELDS];
    uint32_t field[FIELDS];
    uint8_t frame[13];
};

static const struct kind kinds[] = {
    {"query", 0x04, 5, {0, 0, 1, 0, 0, 0}, {0, 0, 0x12345678, 0, 0, 0},
     {0x04, 0x12, 0x34, 0x56, 0x78}},
    {"command", 0x0F, 10, {1, 2, 5, 9, 0, 0}, {27, 0xABCDEF, 0x12345679, 1, 0, 0},
     {0x0F, 0x1B, 0xAB, 0xCD, 0xEF, 0x12, 0x34, 0x56, 0x79, 0x01}},
    {"value", 0x14, 9, {0, 0, 1, 0, 5, 0}, {0, 0, 0x23456789, 0, 0xFEDCBA98, 0},
     {0x14, 0x23, 0x45, 0x67, 0x89, 0xFE, 0xDC, 0xBA, 0x98}},
    {"command answer", 0x17, 13, {1, 2, 5, 0, 9, 0}, {9, 0x010203, 0x3456789A, 0, 0x89ABCDEF, 0},
     {0x17, 0x09, 0x01, 0x02, 0x03, 0x34, 0x56, 0x78, 0x9A, 0x89, 0xAB, 0xCD, 0xEF}},
    {"query refused", 0x24, 6, {0, 0, 1, 0, 0, 5}, {0, 0, 0x456789AB, 0, 0, 7},
     {0x24, 0x45, 0x67, 0x89, 0xAB, 0x07}},
    {"command refused", 0x27, 10, {1, 2, 5, 0, 0, 9}, {32, 0x00FF01, 0x56789ABC, 0, 0, 12},
     {0x27, 0x20, 0x00, 0xFF, 0x01, 0x56, 0x78, 0x9A, 0xBC, 0x0C}},
};

/* Single frames and what the reader makes of them; numbers left out are 0. */
struct reading {
    const char *name;
    size_t length;
    uint8_t bytes[16];
    uint32_t answer;
    uint32_t map;
    uint32_t field[FIELDS];
};

static const struct reading readings[] = {
    {.name = "marked frame", .length = 10, .answer = 0, .map = 0x0F, .field = {3, 1, 9, 2, 0, 0},
     .bytes = {0x0F, 3, 0, 0, 1, 0, 0, 0, 9, 2}},
    {.name = "8: empty", .length = 0, .answer = 8, .bytes = {0}},
    {.name = "8: empty, a frame behind", .length = 0, .answer = 8, .bytes = {0x04, 0, 0, 0, 9}},
    {.name = "8: map only", .length = 1, .answer = 8, .bytes = {0x04}},
    {.name = "8: too short", .length = 9, .answer = 8, .bytes = {0x0F, 3, 0, 0, 1, 0, 0, 0, 9}},
    {.name = "8: too long", .length = 6, .answer = 8, .bytes = {0x04, 0, 0, 0, 9, 0}},
    {.name = "9: map 00", .length = 1, .answer = 9, .bytes = {0x00}},
    {.name = "9: map 40", .length = 5, .answer = 9, .bytes = {0x40, 0, 0, 0, 9}},
    {.name = "9: map 3F", .length = 14, .answer = 9, .bytes = {0x3F, 3, 0, 0, 1, 0, 0, 0, 9, 2}},
    {.name = "10", .length = 10, .answer = 10, .bytes = {0x0F, 33, 0, 0, 1, 0, 0, 0, 9, 2}},
    {.name = "11", .length = 10, .answer = 11, .bytes = {0x0F, 3, 0, 0, 0, 0, 0, 0, 9, 2}},
    {.name = "2: zero", .length = 5, .answer = 2, .bytes = {0x04, 0, 0, 0, 0}},
    {.name = "2: above", .length = 5, .answer = 2, .bytes = {0x04, 0x7F, 0xFF, 0xFF, 0xFF}},
    {.name = "13: action", .length = 10, .answer = 13, .bytes = {0x0F, 3, 0, 0, 1, 0, 0, 0, 9, 3}},
    {.name = "13: refusal 0", .length = 6, .answer = 13, .bytes = {0x24, 0, 0, 0, 9, 0}},
    {.name = "13: refusal 15", .length = 6, .answer = 13, .bytes = {0x24, 0, 0, 0, 9, 15}},
    {.name = "9 before 8", .length = 2, .answer = 9, .bytes = {0x05, 0}},
    {.name = "8 before 10", .length = 9, .answer = 8, .bytes = {0x0F, 0, 0, 0, 1, 0, 0, 0, 9}},
    {.name = "8 before 11", .length = 9, .answer = 8, .bytes = {0x0F, 3, 0, 0, 0, 0, 0, 0, 9}},
    {.name = "8 before 2", .length = 4, .answer = 8, .bytes = {0x04, 0, 0, 0}},
    {.name = "8 before 13", .length = 11, .answer = 8, .bytes = {0x0F, 3, 0, 0, 1, 0, 0, 0, 9, 3}},
    {.name = "10 before 11", .length = 10, .answer = 10, .bytes = {0x0F, 0, 0, 0, 0, 0, 0, 0, 9}},
    {.name = "10 before 2", .length = 10, .answer = 10, .bytes = {0x0F, 0, 0, 0, 1, 0, 0, 0, 0}},
    {.name = "10 before 13", .length = 10, .answer = 10,
     .bytes = {0x0F, 0, 0, 0, 1, 0, 0, 0, 9, 3}},
    {.name = "11 before 2", .length = 10, .answer = 11, .bytes = {0x0F, 3, 0, 0, 0, 0, 0, 0, 0}},
    {.name = "11 before 13", .length = 10, .answer = 11,
     .bytes = {0x27, 3, 0, 0, 0, 0, 0, 0, 9, 15}},
    {.name = "2 before 13", .length = 10, .answer = 2, .bytes = {0x0F, 3, 0, 0, 1, 0, 0, 0, 0, 3}},
    {.name = "2 before 13 (refusal)", .length = 6, .answer = 2, .bytes = {0x24, 0, 0, 0, 0, 0}},
};

/* Single calls of the writer; a frame is given where the answer is 0. */
struct writing {
    const char *name;
    size_t length;
    uint32_t map;
    uint32_t field[FIELDS];
    uint32_t answer;
    size_t written;
    uint8_t frame[13];
};

static const struct writing writings[] = {
    {.name = "marked frame", .length = 10, .map = 0x0F, .field = {3, 1, 9, 2, 0, 0}, .answer = 0,
     .written = 10, .frame = {0x0F, 3, 0, 0, 1, 0, 0, 0, 9, 2}},
    {.name = "all other fields absurd", .length = 16, .map = 0x04, .answer = 0, .written = 5,
     .field = {4294967295, 4294967295, 9, 4294967295, 4294967295, 4294967295},
     .frame = {0x04, 0, 0, 0, 9}},
    {.name = "9: map 0", .length = 16, .map = 0, .field = {3, 1, 9, 2, 5, 1}, .answer = 9},
    {.name = "9: map 260", .length = 16, .map = 260, .field = {3, 1, 9, 2, 5, 1}, .answer = 9},
    {.name = "10", .length = 16, .map = 0x0F, .field = {33, 1, 9, 2, 5, 1}, .answer = 10},
    {.name = "11", .length = 16, .map = 0x0F, .field = {3, 0, 9, 2, 5, 1}, .answer = 11},
    {.name = "2", .length = 16, .map = 0x04, .field = {3, 1, 0, 2, 5, 1}, .answer = 2},
    {.name = "13: action", .length = 16, .map = 0x0F, .field = {3, 1, 9, 3, 5, 1}, .answer = 13},
    {.name = "13: refusal", .length = 16, .map = 0x24, .field = {3, 1, 9, 2, 5, 0}, .answer = 13},
    {.name = "14: no room", .length = 0, .map = 0x04, .field = {3, 1, 9, 2, 5, 1}, .answer = 14},
    {.name = "14: one less", .length = 12, .map = 0x17, .field = {3, 1, 9, 2, 5, 1}, .answer = 14},
    {.name = "9 before 10", .length = 16, .map = 0x07, .field = {0, 1, 9, 2, 5, 1}, .answer = 9},
    {.name = "9 before 11", .length = 16, .map = 0x07, .field = {3, 0, 9, 2, 5, 1}, .answer = 9},
    {.name = "9 before 2", .length = 16, .map = 0x07, .field = {3, 1, 0, 2, 5, 1}, .answer = 9},
    {.name = "9 before 13", .length = 16, .map = 0x2F, .field = {3, 1, 9, 3, 5, 0}, .answer = 9},
    {.name = "9 before 14", .length = 0, .map = 0x07, .field = {3, 1, 9, 2, 5, 1}, .answer = 9},
    {.name = "10 before 11", .length = 16, .map = 0x17, .field = {0, 0, 9, 2, 5, 1}, .answer = 10},
    {.name = "10 before 2", .length = 16, .map = 0x17, .field = {0, 1, 0, 2, 5, 1}, .answer = 10},
    {.name = "10 before 13", .length = 16, .map = 0x0F, .field = {0, 1, 9, 3, 5, 1}, .answer = 10},
    {.name = "10 before 14", .length = 9, .map = 0x0F, .field = {0, 1, 9, 2, 5, 1}, .answer = 10},
    {.name = "11 before 2", .length = 16, .map = 0x17, .field = {3, 0, 0, 2, 5, 1}, .answer = 11},
    {.name = "11 before 13", .length = 16, .map = 0x27, .field = {3, 0, 9, 2, 5, 15}, .answer = 11},
    {.name = "11 before 14", .length = 9, .map = 0x0F, .field = {3, 0, 9, 2, 5, 1}, .answer = 11},
    {.name = "2 before 13", .length = 16, .map = 0x0F, .field = {3, 1, 0, 3, 5, 1}, .answer = 2},
    {.name = "2 before 13 (refusal)", .length = 16, .map = 0x24, .field = {3, 1, 0, 2, 5, 0},
     .answer = 2},
    {.name = "2 before 14", .length = 4, .map = 0x04, .field = {3, 1, 0, 2, 5, 1}, .answer = 2},
    {.name = "13 before 14", .length = 9, .map = 0x0F, .field = {3, 1, 9, 3, 5, 1}, .answer = 13},
    {.name = "13 before 14 (refusal)", .length = 5, .map = 0x24, .field = {3, 1, 9, 2, 5, 0},
     .answer = 13},
};

/* One number in one field, at the ends of its range: its refusal or 0, and its bytes if it fits
   into the field. Rising by field, which is the order of refusals. */
struct edge {
    int field;
    uint32_t number;
    uint32_t refusal;
    uint8_t bytes[4];
};

static const struct edge edges[] = {
    {STATION, 0, 10, {0x00}},
    {STATION, 1, 0, {0x01}},
    {STATION, 32, 0, {0x20}},
    {STATION, 33, 10, {0x21}},
    {STATION, 255, 10, {0xFF}},
    {STATION, 259, 10, {0}},
    {STATION, 4294967295, 10, {0}},
    {NUMBER, 0, 11, {0x00, 0x00, 0x00}},
    {NUMBER, 1, 0, {0x00, 0x00, 0x01}},
    {NUMBER, 65536, 0, {0x01, 0x00, 0x00}},
    {NUMBER, 16777215, 0, {0xFF, 0xFF, 0xFF}},
    {NUMBER, 16777216, 11, {0}},
    {NUMBER, 16777217, 11, {0}},
    {NUMBER, 4294967295, 11, {0}},
    {POINT, 0, 2, {0x00, 0x00, 0x00, 0x00}},
    {POINT, 1, 0, {0x00, 0x00, 0x00, 0x01}},
    {POINT, 2147483646, 0, {0x7F, 0xFF, 0xFF, 0xFE}},
    {POINT, 2147483647, 2, {0x7F, 0xFF, 0xFF, 0xFF}},
    {POINT, 2147483648, 2, {0x80, 0x00, 0x00, 0x00}},
    {POINT, 4294967295, 2, {0xFF, 0xFF, 0xFF, 0xFF}},
    {ACTION, 0, 0, {0x00}},
    {ACTION, 1, 0, {0x01}},
    {ACTION, 2, 0, {0x02}},
    {ACTION, 3, 13, {0x03}},
    {ACTION, 255, 13, {0xFF}},
    {ACTION, 256, 13, {0}},
    {ACTION, 4294967295, 13, {0}},
    {VALUE, 0, 0, {0x00, 0x00, 0x00, 0x00}},
    {VALUE, 1, 0, {0x00, 0x00, 0x00, 0x01}},
    {VALUE, 4294967295, 0, {0xFF, 0xFF, 0xFF, 0xFF}},
    {REFUSAL, 0, 13, {0x00}},
    {REFUSAL, 1, 0, {0x01}},
    {REFUSAL, 14, 0, {0x0E}},
    {REFUSAL, 15, 13, {0x0F}},
    {REFUSAL, 255, 13, {0xFF}},
    {REFUSAL, 257, 13, {0}},
    {REFUSAL, 4294967295, 13, {0}},
};

/* Which answers the reader and the writer give at all, by number. */
static const struct {
    bool read;
    bool write;
} given[15] = {[0] = {true, true},   [2] = {true, true},   [8] = {true, false},
               [9] = {true, true},   [10] = {true, true},  [11] = {true, true},
               [13] = {true, true},  [14] = {false, true}};

/* ---- Comparing ------------------------------------------------------------------------- */

enum { SHOWN = 100 }; /* differences that are printed one by one */

static unsigned long comparisons;
static unsigned long differences;
static char title[120]; /* the case at hand, for the print of a difference */

static void equal(const char *what, unsigned long got, unsigned long wanted)
{
    comparisons++;
    if (got == wanted) {
        return;
    }
    differences++;
    if (differences <= SHOWN) {
        printf("%s: %s is %lu, expected %lu\n", title, what, got, wanted);
    }
}

/* The answers seen so far, by number; the last place counts any number above the table. */
static unsigned long seen_read[16];
static unsigned long seen_write[16];

static void note(unsigned long *seen, uint32_t answer)
{
    seen[answer < 15 ? answer : 15]++;
}

/* ---- Lent bytes ------------------------------------------------------------------------ */

enum { GUARD = 16, ROOM = 1 << 17 };

/* EXACT: malloc'd memory of just the length. PAGE_END and PAGE_START: no access is allowed
   behind or before the bytes. MIDDLE: bytes on both sides that must stay as they are. */
enum { EXACT, PAGE_END, PAGE_START, MIDDLE, PLACES };

static const char *const place_name[PLACES] = {"exact", "page end", "page start", "middle"};

struct lent {
    uint8_t *bytes;
    size_t length;
    size_t before; /* guard bytes */
    size_t behind;
    void *block; /* to be freed, or null */
};

static uint8_t *room; /* ROOM bytes, with a page without access on either side */

static void *checked(void *memory, bool good)
{
    if (!good) {
        fputs("frame_test: no memory\n", stderr);
        exit(2);
    }
    return memory;
}

static void make_room(void)
{
    size_t page = (size_t)sysconf(_SC_PAGESIZE);
    uint8_t *all = mmap(NULL, ROOM + 2 * page, PROT_NONE, MAP_PRIVATE | MAP_ANONYMOUS, -1, 0);
    checked(all, all != MAP_FAILED);
    room = all + page;
    checked(room, mprotect(room, ROOM, PROT_READ | PROT_WRITE) == 0);
}

/* A byte of the pattern that fills memory before a call. */
static uint8_t pattern(ptrdiff_t index)
{
    return (uint8_t)(0x5A + 29 * index);
}

static struct lent lend(int place, size_t length)
{
    struct lent lent = {.length = length};
    if (place == EXACT) {
        lent.block = malloc(length > 0 ? length : 1); /* malloc(0) may give null */
        lent.bytes = checked(lent.block, lent.block != NULL);
    } else if (place == PAGE_END) {
        lent.bytes = room + ROOM - length;
        lent.before = GUARD;
    } else if (place == PAGE_START) {
        lent.bytes = room;
        lent.behind = GUARD;
    } else {
        lent.bytes = room + GUARD;
        lent.before = GUARD;
        lent.behind = GUARD;
    }
    for (ptrdiff_t i = -(ptrdiff_t)lent.before; i < (ptrdiff_t)(length + lent.behind); i++) {
        lent.bytes[i] = pattern(i);
    }
    return lent;
}

/* Compares all lent bytes and guards: first `count` bytes as given, everything else untouched. */
static void take_back(const struct lent *lent, const uint8_t *first, size_t count)
{
    ptrdiff_t end = (ptrdiff_t)(lent->length + lent->behind);
    for (ptrdiff_t i = -(ptrdiff_t)lent->before; i < end; i++) {
        bool listed = i >= 0 && (size_t)i < count;
        uint8_t wanted = listed ? first[i] : pattern(i);
        char what[32] = "";
        if (lent->bytes[i] != wanted) {
            snprintf(what, sizeof what, "byte %td", i);
        }
        equal(what, lent->bytes[i], wanted);
    }
    free(lent->block);
}

/* ---- One call -------------------------------------------------------------------------- */

#define UNTOUCHED 0xA5C3E187u

/* Out numbers with guards: number i at place 2i + 1. */
struct outs {
    uint32_t word[2 * (FIELDS + 1) + 1];
};

static struct outs fresh_outs(void)
{
    struct outs outs;
    for (size_t i = 0; i < COUNT(outs.word); i++) {
        outs.word[i] = UNTOUCHED;
    }
    return outs;
}

static void check_outs(const struct outs *outs, uint32_t map, const uint32_t *field)
{
    equal("map", outs->word[1], map);
    for (int f = 0; f < FIELDS; f++) {
        equal(field_name[f], outs->word[2 * f + 3], field[f]);
    }
    for (size_t i = 0; i < COUNT(outs->word); i += 2) {
        equal("guard of an out number", outs->word[i], UNTOUCHED);
    }
}

/* Reads `count` given bytes and pattern behind them up to `length`. */
static void check_read(const char *name, const uint8_t *bytes, size_t count, size_t length,
                       uint32_t answer, uint32_t map, const uint32_t *field)
{
    for (int place = 0; place < PLACES; place++) {
        struct lent lent = lend(place, length);
        struct outs outs = fresh_outs();
        uint32_t *w = outs.word;
        size_t copied = count < length ? count : length;
        snprintf(title, sizeof title, "read %s, %zu bytes, %s", name, length, place_name[place]);
        memcpy(lent.bytes, bytes, copied);
        uint32_t got = jizkorma_frame_read(lent.bytes, length, &w[1], &w[3], &w[5], &w[7], &w[9],
                                           &w[11], &w[13]);
        note(seen_read, got);
        equal("answer", got, answer);
        check_outs(&outs, map, field);
        take_back(&lent, bytes, copied);
    }
}

/* Writes into `length` bytes; `frame` is what the first `written` bytes are to hold. */
static void check_write(const char *name, size_t length, uint32_t map, const uint32_t *field,
                        uint32_t answer, const uint8_t *frame, size_t written)
{
    for (int place = 0; place < PLACES; place++) {
        struct lent lent = lend(place, length);
        uint32_t out[3] = {UNTOUCHED, UNTOUCHED, UNTOUCHED};
        snprintf(title, sizeof title, "write %s, %zu bytes, %s", name, length, place_name[place]);
        uint32_t got = jizkorma_frame_write(lent.bytes, length, &out[1], map, field[STATION],
                                            field[NUMBER], field[POINT], field[ACTION],
                                            field[VALUE], field[REFUSAL]);
        note(seen_write, got);
        equal("answer", got, answer);
        equal("written", out[1], written);
        equal("guard of an out number", out[0], UNTOUCHED);
        equal("guard of an out number", out[2], UNTOUCHED);
        take_back(&lent, frame, written);
    }
}

static const uint32_t no_field[FIELDS];

static void check_read_refused(const char *name, const uint8_t *bytes, size_t count, size_t length,
                               uint32_t answer)
{
    check_read(name, bytes, count, length, answer, 0, no_field);
}

/* ---- Tests ----------------------------------------------------------------------------- */

static void test_header(void)
{
    static const struct {
        const char *name;
        unsigned long got;
        unsigned long wanted;
    } constants[] = {
        {"query", JIZKORMA_MAP_QUERY, 0x04},
        {"command", JIZKORMA_MAP_COMMAND, 0x0F},
        {"value", JIZKORMA_MAP_VALUE, 0x14},
        {"command answer", JIZKORMA_MAP_COMMAND_ANSWER, 0x17},
        {"query refused", JIZKORMA_MAP_QUERY_REFUSED, 0x24},
        {"command refused", JIZKORMA_MAP_COMMAND_REFUSED, 0x27},
        {"longest", JIZKORMA_FRAME_LONGEST, 13},
        {"enable", JIZKORMA_ACTION_ENABLE, 0},
        {"disable", JIZKORMA_ACTION_DISABLE, 1},
        {"toggle", JIZKORMA_ACTION_TOGGLE, 2},
        {"accepted", JIZKORMA_ACCEPTED, 0},
        {"misfit", JIZKORMA_REFUSAL_MISFIT, 1},
        {"address", JIZKORMA_REFUSAL_ADDRESS, 2},
        {"reader", JIZKORMA_REFUSAL_READER, 3},
        {"engaged", JIZKORMA_REFUSAL_ENGAGED, 4},
        {"idle", JIZKORMA_REFUSAL_IDLE, 5},
        {"no perch", JIZKORMA_REFUSAL_NO_PERCH, 6},
        {"unknown", JIZKORMA_REFUSAL_UNKNOWN, 7},
        {"length", JIZKORMA_REFUSAL_LENGTH, 8},
        {"map", JIZKORMA_REFUSAL_MAP, 9},
        {"station", JIZKORMA_REFUSAL_STATION, 10},
        {"turn", JIZKORMA_REFUSAL_TURN, 11},
        {"altered", JIZKORMA_REFUSAL_ALTERED, 12},
        {"code", JIZKORMA_REFUSAL_CODE, 13},
        {"short", JIZKORMA_REFUSAL_SHORT, 14},
    };
    snprintf(title, sizeof title, "header");
    for (size_t i = 0; i < COUNT(constants); i++) {
        equal(constants[i].name, constants[i].got, constants[i].wanted);
    }
}

static void test_tables(void)
{
    for (size_t i = 0; i < COUNT(readings); i++) {
        const struct reading *r = &readings[i];
        check_read(r->name, r->bytes, COUNT(r->bytes), r->length, r->answer, r->map, r->field);
    }
    for (size_t i = 0; i < COUNT(writings); i++) {
        const struct writing *w = &writings[i];
        check_write(w->name, w->length, w->map, w->field, w->answer, w->frame, w->written);
    }
}

/* Each kind is written, and what was written is read back from the same memory. */
static void test_round_trip(void)
{
    for (size_t i = 0; i < COUNT(kinds); i++) {
        const struct kind *k = &kinds[i];
        const uint32_t *f = k->field;
        struct lent lent = lend(EXACT, k->length);
        struct outs outs = fresh_outs();
        uint32_t *w = outs.word;
        uint32_t written = UNTOUCHED;
        snprintf(title, sizeof title, "round trip of %s", k->name);
        equal("answer of the writer",
              jizkorma_frame_write(lent.bytes, k->length, &written, k->map, f[STATION], f[NUMBER],
                                   f[POINT], f[ACTION], f[VALUE], f[REFUSAL]), 0);
        equal("written", written, k->length);
        equal("answer of the reader",
              jizkorma_frame_read(lent.bytes, k->length, &w[1], &w[3], &w[5], &w[7], &w[9], &w[11],
                                  &w[13]), 0);
        check_outs(&outs, k->map, f);
        take_back(&lent, k->frame, k->length);
    }
}

/* Lengths around the frame's own; the large ones agree with it in their low 8 or 16 bits. */
static void test_lengths(const struct kind *k)
{
    for (size_t length = 0; length <= 16; length++) {
        if (length == k->length) {
            check_read(k->name, k->frame, k->length, length, 0, k->map, k->field);
        } else {
            check_read_refused(k->name, k->frame, k->length, length, 8);
        }
        bool fits = length >= k->length;
        check_write(k->name, length, k->map, k->field, fits ? 0 : 14, k->frame,
                    fits ? k->length : 0);
    }
    static const size_t large[] = {256, 65536};
    for (size_t i = 0; i < COUNT(large); i++) {
        check_read_refused(k->name, k->frame, k->length, large[i] + k->length, 8);
        check_write(k->name, large[i], k->map, k->field, 0, k->frame, k->length);
    }
}

static bool fits_field(const struct edge *e)
{
    size_t width = field_width[e->field];
    return width == 4 || e->number >> (8 * width) == 0;
}

/* Two fields of a kind at two edges. Fields that the map lacks hold absurd numbers. */
static void test_edges_write(const struct kind *k, const struct edge *two[2], uint32_t refusal,
                             const uint8_t *frame)
{
    uint32_t field[FIELDS];
    for (int f = 0; f < FIELDS; f++) {
        field[f] = k->offset[f] != 0 ? k->field[f] : 0xDEADBEEF;
    }
    field[two[0]->field] = two[0]->number;
    field[two[1]->field] = two[1]->number;
    const size_t lengths[] = {0, k->length - 1, k->length, k->length + 3};
    for (size_t i = 0; i < COUNT(lengths); i++) {
        uint32_t answer = refusal != 0 ? refusal : lengths[i] < k->length ? 14 : 0;
        check_write("edges", lengths[i], k->map, field, answer, frame,
                    answer == 0 ? k->length : 0);
    }
}

static void test_edges_read(const struct kind *k, const struct edge *two[2], uint32_t refusal,
                            const uint8_t *frame)
{
    uint32_t field[FIELDS];
    memcpy(field, k->field, sizeof field);
    for (int e = 0; e < 2; e++) {
        int f = two[e]->field;
        field[f] = k->offset[f] != 0 ? two[e]->number : 0;
    }
    if (refusal != 0) {
        check_read_refused("edges", frame, k->length, k->length, refusal);
    } else {
        check_read("edges", frame, k->length, k->length, 0, k->map, field);
    }
    check_read_refused("edges, one less", frame, k->length, k->length - 1, 8);
    check_read_refused("edges, one more", frame, k->length, k->length + 1, 8);
}

/* `first` stands before `second` in bit order, so its refusal is the earlier. */
static void test_edges(const struct kind *k, const struct edge *first, const struct edge *second)
{
    const struct edge *two[2] = {first, second};
    uint8_t frame[13];
    uint32_t refusal = 0;
    bool readable = true;
    memcpy(frame, k->frame, sizeof frame);
    for (int e = 0; e < 2; e++) {
        size_t offset = k->offset[two[e]->field];
        if (offset == 0) {
            continue;
        }
        memcpy(frame + offset, two[e]->bytes, field_width[two[e]->field]);
        readable = readable && fits_field(two[e]);
        refusal = refusal != 0 ? refusal : two[e]->refusal;
    }
    test_edges_write(k, two, refusal, frame);
    if (readable) {
        test_edges_read(k, two, refusal, frame);
    }
}

static void test_all_edges(void)
{
    for (size_t i = 0; i < COUNT(kinds); i++) {
        for (size_t a = 0; a < COUNT(edges); a++) {
            for (size_t b = a + 1; b < COUNT(edges); b++) {
                if (edges[a].field != edges[b].field) {
                    test_edges(&kinds[i], &edges[a], &edges[b]);
                }
            }
        }
    }
}

static const struct kind *kind_of(uint32_t map)
{
    for (size_t i = 0; i < COUNT(kinds); i++) {
        if (kinds[i].map == map) {
            return &kinds[i];
        }
    }
    return NULL;
}

/* Every map byte with every length. Bytes of 1 make each field valid, bytes of 0 make station
   and point invalid, and one of these is the first field of every kind. */
static void test_map_read(uint32_t map, size_t length, uint8_t filler)
{
    static const uint32_t ones[FIELDS] = {1, 0x010101, 0x01010101, 1, 0x01010101, 1};
    const struct kind *k = kind_of(map);
    uint32_t field[FIELDS] = {0};
    uint8_t bytes[16];
    char name[32];
    snprintf(name, sizeof name, "map %02X, filler %u", (unsigned)map, (unsigned)filler);
    memset(bytes, filler, sizeof bytes);
    bytes[0] = (uint8_t)map;
    if (length == 0 || k == NULL || length != k->length) {
        check_read_refused(name, bytes, 16, length, length == 0 ? 8 : k == NULL ? 9 : 8);
    } else if (filler == 0) {
        check_read_refused(name, bytes, 16, length, k->offset[STATION] != 0 ? 10 : 2);
    } else {
        for (int f = 0; f < FIELDS; f++) {
            field[f] = k->offset[f] != 0 ? ones[f] : 0;
        }
        check_read(name, bytes, 16, length, 0, map, field);
    }
}

static void test_map_write(uint32_t map)
{
    static const uint32_t good[FIELDS] = {3, 1, 9, 2, 5, 1};
    static const uint32_t bad[FIELDS] = {0, 0, 0, 3, 5, 0};
    char name[32];
    if (kind_of(map) != NULL) {
        return; /* written by the other tests */
    }
    snprintf(name, sizeof name, "map %lX", (unsigned long)map);
    check_write(name, 16, map, good, 9, NULL, 0);
    check_write(name, 0, map, good, 9, NULL, 0);
    check_write(name, 16, map, bad, 9, NULL, 0);
}

static void test_maps(void)
{
    for (uint32_t map = 0; map < 256; map++) {
        for (size_t length = 0; length <= 16; length++) {
            test_map_read(map, length, 0);
            test_map_read(map, length, 1);
        }
    }
    for (uint32_t map = 0; map <= 600; map++) {
        test_map_write(map);
    }
    for (size_t i = 0; i < COUNT(kinds); i++) {
        test_map_write(kinds[i].map + 0x10000);
        test_map_write(kinds[i].map + 0x80000000);
    }
    test_map_write(4294967295);
}

/* All answers that can be given were given, and 12 and the others never. */
static void test_seen(void)
{
    snprintf(title, sizeof title, "answers");
    for (int i = 0; i < 16; i++) {
        char what[40];
        snprintf(what, sizeof what, "%d given by the reader at all", i);
        equal(what, seen_read[i] != 0, i < 15 && given[i].read);
        snprintf(what, sizeof what, "%d given by the writer at all", i);
        equal(what, seen_write[i] != 0, i < 15 && given[i].write);
    }
}

int main(void)
{
    setvbuf(stdout, NULL, _IOLBF, 0); /* differences are seen even if a later call ends the test */
    make_room();
    test_header();
    test_tables();
    test_round_trip();
    for (size_t i = 0; i < COUNT(kinds); i++) {
        test_lengths(&kinds[i]);
    }
    test_all_edges();
    test_maps();
    test_seen();
    if (differences > SHOWN) {
        printf("%lu further differences not printed\n", differences - SHOWN);
    }
    printf("frame_test: %lu comparisons, %lu differences\n", comparisons, differences);
    return differences == 0 ? 0 : 1;
}
