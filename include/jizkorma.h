/*
 * Frames of the point table: one reader and one writer.
 *
 * A frame is one map byte, then exactly the fields whose bit is set in that byte, in rising
 * bit order, each big-endian:
 *
 *     bit  field    bytes  range
 *     0    station  1      1 to 32
 *     1    number   3      1 to 16777215
 *     2    point    4      1 to 2147483646
 *     3    action   1      0 to 2
 *     4    value    4      0 to 4294967295
 *     5    refusal  1      1 to 14
 *
 * Both functions return JIZKORMA_ACCEPTED or one of the refusals below. Only the first refusal
 * that applies is returned, in this order:
 *
 *     reader  LENGTH (no byte at all), MAP, LENGTH (not the length that the map gives), fields
 *     writer  MAP, fields, SHORT
 *     fields  STATION, TURN, ADDRESS, CODE (action), CODE (refusal); only fields in the map
 *
 * With a refusal every number handed back is 0, and no byte is altered.
 *
 * The caller sees to the following. Neither function can test it, and a call that breaks it is
 * undefined.
 *
 *   - `bytes` points to `length` bytes in one object. It is a valid pointer that is not null,
 *     even if `length` is 0.
 *   - Each out pointer is not null and points to one aligned uint32_t that may be written.
 *   - No two out pointers point to the same memory or to memory that overlaps, and none points
 *     into the `length` bytes.
 *   - Nothing else writes to any of this memory during the call, and nothing else reads what
 *     the call writes.
 *
 * Neither function keeps a pointer after it returns. What the out numbers hold before the call
 * has no effect.
 */
#ifndef JIZKORMA_H
#define JIZKORMA_H

#include <stddef.h>
#include <stdint.h>

#ifdef __cplusplus
extern "C" {
#endif

/* The six map bytes, and the length of their frames. */
#define JIZKORMA_MAP_QUERY           0x04u /*  5 bytes: point */
#define JIZKORMA_MAP_COMMAND         0x0Fu /* 10 bytes: station, number, point, action */
#define JIZKORMA_MAP_VALUE           0x14u /*  9 bytes: point, value */
#define JIZKORMA_MAP_COMMAND_ANSWER  0x17u /* 13 bytes: station, number, point, value */
#define JIZKORMA_MAP_QUERY_REFUSED   0x24u /*  6 bytes: point, refusal */
#define JIZKORMA_MAP_COMMAND_REFUSED 0x27u /* 10 bytes: station, number, point, refusal */

/* A buffer of this length takes every frame. */
#define JIZKORMA_FRAME_LONGEST 13u

/* The three actions. */
#define JIZKORMA_ACTION_ENABLE  0u
#define JIZKORMA_ACTION_DISABLE 1u
#define JIZKORMA_ACTION_TOGGLE  2u

/* What the two functions return: 0, or one of 2, 8, 9, 10, 11, 13 and 14 of the panel's refusal
   table. The others are found in frames only, in the refusal field. */
#define JIZKORMA_ACCEPTED         0u
#define JIZKORMA_REFUSAL_MISFIT   1u  /* the panel's record or slots do not fit; never returned */
#define JIZKORMA_REFUSAL_ADDRESS  2u  /* point outside 1 to 2147483646 */
#define JIZKORMA_REFUSAL_READER   3u  /* no such reader; never returned */
#define JIZKORMA_REFUSAL_ENGAGED  4u  /* work is underway; never returned */
#define JIZKORMA_REFUSAL_IDLE     5u  /* no work is underway; never returned */
#define JIZKORMA_REFUSAL_NO_PERCH 6u  /* no position of the point is free; never returned */
#define JIZKORMA_REFUSAL_UNKNOWN  7u  /* point not found; never returned */
#define JIZKORMA_REFUSAL_LENGTH   8u  /* frame empty, or not its map's length; reader only */
#define JIZKORMA_REFUSAL_MAP      9u  /* map is none of the six */
#define JIZKORMA_REFUSAL_STATION  10u /* station outside 1 to 32 */
#define JIZKORMA_REFUSAL_TURN     11u /* number outside 1 to 16777215 */
#define JIZKORMA_REFUSAL_ALTERED  12u /* last number, other content; never returned */
#define JIZKORMA_REFUSAL_CODE     13u /* action above 2, or refusal field outside 1 to 14 */
#define JIZKORMA_REFUSAL_SHORT    14u /* buffer shorter than the frame; writer only */

/*
 * Reads one frame, which must fill the `length` bytes exactly.
 *
 * Returns JIZKORMA_ACCEPTED, or ADDRESS, LENGTH, MAP, STATION, TURN or CODE. Each of the seven
 * out numbers is written in every case: 0 if the map lacks the field, and 0 with a refusal.
 */
uint32_t jizkorma_frame_read(
    const uint8_t *bytes, /* the frame; only read; not null even if `length` is 0 */
    size_t length,        /* how many bytes there are, any number; 0 is refused */
    uint32_t *map,        /* out: the map byte, one of the six; 0 with a refusal */
    uint32_t *station,    /* out: 1 to 32; 0 if not in the map or with a refusal */
    uint32_t *number,     /* out: 1 to 16777215; 0 if not in the map or with a refusal */
    uint32_t *point,      /* out: 1 to 2147483646, in every map; 0 with a refusal */
    uint32_t *action,     /* out: 0 to 2; 0 if not in the map or with a refusal */
    uint32_t *value,      /* out: any number; 0 if not in the map or with a refusal */
    uint32_t *refusal);   /* out: 1 to 14, the frame's own field, not what this call returns;
                             0 if not in the map or with a refusal */

/*
 * Writes one frame at the start of the `length` bytes. Bytes behind the frame are left alone.
 *
 * Returns JIZKORMA_ACCEPTED, or ADDRESS, MAP, STATION, TURN, CODE or SHORT. A field that the map
 * lacks is ignored, whatever it holds. Every number is judged whole before it is narrowed to its
 * bytes.
 */
uint32_t jizkorma_frame_write(
    uint8_t *bytes,     /* the buffer; with a refusal no byte of it is altered; what it holds
                           before has no effect; not null even if `length` is 0 */
    size_t length,      /* how many bytes the buffer has, any number */
    uint32_t *written,  /* out: the length of the frame, 5 to 13; 0 with a refusal */
    uint32_t map,       /* one of the six map bytes; any other number is refused */
    uint32_t station,   /* 1 to 32 if in the map */
    uint32_t number,    /* 1 to 16777215 if in the map */
    uint32_t point,     /* 1 to 2147483646, in every map */
    uint32_t action,    /* 0 to 2 if in the map */
    uint32_t value,     /* any number */
    uint32_t refusal);  /* 1 to 14 if in the map */

#ifdef __cplusplus
}
#endif

#endif
