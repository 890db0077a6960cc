/*
 * What the two fuzz targets of the frame library share: memory to lend, the two calls with out
 * numbers between guard words, and the reference.
 *
 * Every call is made with its bytes in each of three places. The library is not compiled with
 * the address sanitizer, which therefore sees no stray access of it on the heap; pages without
 * access directly behind and before the bytes stop such an access.
 */
#ifndef FUZZ_FRAME_H
#define FUZZ_FRAME_H

#define _DEFAULT_SOURCE /* for MAP_ANONYMOUS */

#include "jizkorma.h"

#include <stdbool.h>
#include <stddef.h>
#include <stdint.h>
#include <stdio.h>
#include <stdlib.h>
#include <string.h>
#include <sys/mman.h>
#include <unistd.h>

int LLVMFuzzerInitialize(int *argc, char ***argv);
int LLVMFuzzerTestOneInput(const uint8_t *data, size_t size);

/* The map, then the fields by their bits. */
enum { MAP, STATION, NUMBER, POINT, ACTION, VALUE, REFUSAL, NUMBERS };

/* host/fuzz/fuzz_reference.rs */
uint32_t reference_frame_read(const uint8_t *bytes, size_t length, uint32_t numbers[NUMBERS]);
uint32_t reference_frame_write(uint8_t *bytes, size_t length, uint32_t *written,
                               const uint32_t numbers[NUMBERS]);

static inline void require(bool holds, const char *what)
{
    if (!holds) {
        fprintf(stderr, "fuzz: this does not hold: %s\n", what);
        abort();
    }
}

/* ---- Guidance and figures ---------------------------------------------------------------- */

enum { ANSWERS = 16, LENGTHS = 16, MAPS = 64 };

/* Counted as new behaviour by the fuzzer, which clears them before each input: the library's
   answers by length and by map byte. */
__attribute__((section("__libfuzzer_extra_counters"))) static uint8_t by_length[ANSWERS][LENGTHS];
__attribute__((section("__libfuzzer_extra_counters"))) static uint8_t by_map[ANSWERS][MAPS];

static unsigned long seen[ANSWERS];

static inline void note(uint32_t answer, size_t length, uint32_t map)
{
    by_length[answer][length < LENGTHS ? length : LENGTHS - 1] = 1;
    by_map[answer][map < MAPS ? map : MAPS - 1] = 1;
    seen[answer]++;
}

static inline void print_seen(void)
{
    fputs("answers:", stderr);
    for (int answer = 0; answer < ANSWERS; answer++) {
        if (seen[answer] > 0) {
            fprintf(stderr, " %d: %lu", answer, seen[answer]);
        }
    }
    fputc('\n', stderr);
}

/* ---- Lent bytes -------------------------------------------------------------------------- */

/* EXACT: heap memory of just the length. PAGE_END and PAGE_START: no access is allowed behind or
   before the bytes; guard bytes stand on the other side. */
enum { EXACT, PAGE_END, PAGE_START, PLACES };

enum { GUARD = 16, ROOM = 4096 };

static uint8_t *room; /* ROOM bytes, with a page without access on either side */

static inline void make_room(void)
{
    size_t page = (size_t)sysconf(_SC_PAGESIZE);
    require(ROOM % page == 0, "the room is whole pages");
    uint8_t *all = mmap(NULL, ROOM + 2 * page, PROT_NONE, MAP_PRIVATE | MAP_ANONYMOUS, -1, 0);
    require(all != MAP_FAILED, "there is memory");
    room = all + page;
    require(mprotect(room, ROOM, PROT_READ | PROT_WRITE) == 0, "there is memory");
}

struct lent {
    uint8_t *bytes;
    size_t length;
    uint8_t *guard; /* GUARD bytes, or null */
    void *block;    /* to be freed, or null */
};

static inline uint8_t pattern(size_t index)
{
    return (uint8_t)(0x5A + 29 * index);
}

/* `length` bytes that hold what `bytes` does. */
static inline struct lent lend(int place, const uint8_t *bytes, size_t length)
{
    struct lent lent = {.length = length};
    require(length + GUARD <= ROOM, "the bytes fit into the room");
    if (place == EXACT) {
        lent.block = malloc(length > 0 ? length : 1); /* malloc(0) may give null */
        require(lent.block != NULL, "there is memory");
        lent.bytes = lent.block;
    } else if (place == PAGE_END) {
        lent.bytes = room + ROOM - length;
        lent.guard = lent.bytes - GUARD;
    } else {
        lent.bytes = room;
        lent.guard = room + length;
    }
    memcpy(lent.bytes, bytes, length);
    for (size_t i = 0; lent.guard != NULL && i < GUARD; i++) {
        lent.guard[i] = pattern(i);
    }
    return lent;
}

/* The bytes hold what `expected` does, and the guard is untouched. */
static inline void take_back(const struct lent *lent, const uint8_t *expected)
{
    require(memcmp(lent->bytes, expected, lent->length) == 0, "the lent bytes are as expected");
    for (size_t i = 0; lent->guard != NULL && i < GUARD; i++) {
        require(lent->guard[i] == pattern(i), "the bytes beside the lent ones are untouched");
    }
    free(lent->block);
}

/* ---- Calls ------------------------------------------------------------------------------- */

#define UNTOUCHED 0xA5C3E187u

static inline uint32_t library_read(const uint8_t *bytes, size_t length,
                                    uint32_t numbers[NUMBERS])
{
    uint32_t word[2 * NUMBERS + 1]; /* number i at place 2i + 1, guard words around it */
    for (size_t i = 0; i < 2 * NUMBERS + 1; i++) {
        word[i] = UNTOUCHED;
    }
    uint32_t answer = jizkorma_frame_read(bytes, length, &word[1], &word[3], &word[5], &word[7],
                                          &word[9], &word[11], &word[13]);
    for (size_t i = 0; i < 2 * NUMBERS + 1; i += 2) {
        require(word[i] == UNTOUCHED, "the words beside the out numbers are untouched");
    }
    for (size_t i = 0; i < NUMBERS; i++) {
        numbers[i] = word[2 * i + 1];
    }
    return answer;
}

static inline uint32_t library_write(uint8_t *bytes, size_t length, uint32_t *written,
                                     const uint32_t numbers[NUMBERS])
{
    uint32_t word[3] = {UNTOUCHED, UNTOUCHED, UNTOUCHED};
    uint32_t answer = jizkorma_frame_write(bytes, length, &word[1], numbers[MAP],
                                           numbers[STATION], numbers[NUMBER], numbers[POINT],
                                           numbers[ACTION], numbers[VALUE], numbers[REFUSAL]);
    require(word[0] == UNTOUCHED && word[2] == UNTOUCHED,
            "the words beside the out number are untouched");
    *written = word[1];
    return answer;
}

/* ---- Frames, as far as both targets need them -------------------------------------------- */

/* The length of the map's frame, or 0. */
static inline size_t length_of(uint32_t map)
{
    switch (map) {
    case JIZKORMA_MAP_QUERY: return 5;
    case JIZKORMA_MAP_COMMAND: return 10;
    case JIZKORMA_MAP_VALUE: return 9;
    case JIZKORMA_MAP_COMMAND_ANSWER: return 13;
    case JIZKORMA_MAP_QUERY_REFUSED: return 6;
    case JIZKORMA_MAP_COMMAND_REFUSED: return 10;
    default: return 0;
    }
}

/* A field stands at its bit + 1 in the numbers. */
static inline bool has_field(uint32_t map, int field)
{
    return (map >> (field - 1) & 1) == 1;
}

#endif
