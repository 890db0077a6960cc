/*
 * The frame library with a fault, to see that the fuzz targets find it: the linker's --wrap puts
 * these functions in place of the library's. The variable FUZZ_FAULT names the fault. Each
 * shows only on some frames, so that the fuzzer has to find them; like the library, this file is
 * compiled without counters and sanitizers.
 */
#include "jizkorma.h"

#include <stdbool.h>
#include <stdlib.h>
#include <string.h>

uint32_t __real_jizkorma_frame_read(const uint8_t *bytes, size_t length, uint32_t *map,
                                    uint32_t *station, uint32_t *number, uint32_t *point,
                                    uint32_t *action, uint32_t *value, uint32_t *refusal);
uint32_t __wrap_jizkorma_frame_read(const uint8_t *bytes, size_t length, uint32_t *map,
                                    uint32_t *station, uint32_t *number, uint32_t *point,
                                    uint32_t *action, uint32_t *value, uint32_t *refusal);
uint32_t __real_jizkorma_frame_write(uint8_t *bytes, size_t length, uint32_t *written,
                                     uint32_t map, uint32_t station, uint32_t number,
                                     uint32_t point, uint32_t action, uint32_t value,
                                     uint32_t refusal);
uint32_t __wrap_jizkorma_frame_write(uint8_t *bytes, size_t length, uint32_t *written,
                                     uint32_t map, uint32_t station, uint32_t number,
                                     uint32_t point, uint32_t action, uint32_t value,
                                     uint32_t refusal);

static bool has_fault(const char *name)
{
    const char *fault = getenv("FUZZ_FAULT");
    return fault != NULL && strcmp(fault, name) == 0;
}

static uint8_t read_byte(const volatile uint8_t *byte)
{
    return *byte;
}

static void alter_byte(volatile uint8_t *byte)
{
    *byte ^= 1;
}

uint32_t __wrap_jizkorma_frame_read(const uint8_t *bytes, size_t length, uint32_t *map,
                                    uint32_t *station, uint32_t *number, uint32_t *point,
                                    uint32_t *action, uint32_t *value, uint32_t *refusal)
{
    uint32_t answer = __real_jizkorma_frame_read(bytes, length, map, station, number, point,
                                                 action, value, refusal);
    bool accepted = answer == JIZKORMA_ACCEPTED;
    if (has_fault("read_map_with_refusal") && answer == JIZKORMA_REFUSAL_CODE) {
        *map = bytes[0];
    }
    if (has_fault("read_behind") && accepted && length == JIZKORMA_FRAME_LONGEST) {
        read_byte(bytes + length);
    }
    if (has_fault("read_before") && answer == JIZKORMA_REFUSAL_STATION) {
        read_byte(bytes - 1);
    }
    if (has_fault("read_answer_12") && answer == JIZKORMA_REFUSAL_TURN) {
        answer = JIZKORMA_REFUSAL_ALTERED;
    }
    if (has_fault("read_wide_number") && accepted && *action == JIZKORMA_ACTION_TOGGLE) {
        alter_byte((uint8_t *)(action + 1));
    }
    if (has_fault("read_field_lacking") && accepted && *refusal == JIZKORMA_REFUSAL_UNKNOWN) {
        *value = 1;
    }
    if (has_fault("read_other_point") && accepted && *point == 9) {
        *point = 10;
    }
    if (has_fault("read_alters") && accepted && *refusal == JIZKORMA_REFUSAL_SHORT) {
        alter_byte((uint8_t *)bytes);
    }
    return answer;
}

uint32_t __wrap_jizkorma_frame_write(uint8_t *bytes, size_t length, uint32_t *written,
                                     uint32_t map, uint32_t station, uint32_t number,
                                     uint32_t point, uint32_t action, uint32_t value,
                                     uint32_t refusal)
{
    uint32_t answer = __real_jizkorma_frame_write(bytes, length, written, map, station, number,
                                                  point, action, value, refusal);
    bool accepted = answer == JIZKORMA_ACCEPTED;
    if (has_fault("write_byte_too_many") && accepted && *written < length) {
        alter_byte(bytes + *written);
    }
    if (has_fault("write_behind") && accepted && *written == length) {
        alter_byte(bytes + length);
    }
    if (has_fault("write_length_with_refusal") && answer == JIZKORMA_REFUSAL_SHORT) {
        *written = (uint32_t)length;
    }
    if (has_fault("write_refused_touches") && answer == JIZKORMA_REFUSAL_SHORT && length > 4) {
        alter_byte(bytes + 4);
    }
    if (has_fault("write_other_byte") && accepted && map == JIZKORMA_MAP_COMMAND_REFUSED) {
        bytes[9] = JIZKORMA_REFUSAL_MISFIT;
    }
    return answer;
}
