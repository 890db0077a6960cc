/*
 * Fuzz target of the frame writer: any map, fields, buffer length and buffer.
 */
#include "fuzz_frame.h"

enum { LONGEST = 255 };

/* How the fuzzer's bytes are taken; what is missing is 0. */
struct input {
    uint32_t number[NUMBERS];
    uint8_t length;
    uint8_t filling; /* what the buffer holds before: this byte, then one less each */
};

int LLVMFuzzerInitialize(int *argc, char ***argv)
{
    (void)argc;
    (void)argv;
    make_room();
    atexit(print_seen);
    return 0;
}

static bool may_answer(uint32_t answer)
{
    switch (answer) {
    case JIZKORMA_ACCEPTED:
    case JIZKORMA_REFUSAL_ADDRESS:
    case JIZKORMA_REFUSAL_MAP:
    case JIZKORMA_REFUSAL_STATION:
    case JIZKORMA_REFUSAL_TURN:
    case JIZKORMA_REFUSAL_CODE:
    case JIZKORMA_REFUSAL_SHORT: return true;
    default: return false;
    }
}

/* The frame that was written reads as the fields that the map has. */
static void check_accepted(const uint8_t *bytes, uint32_t written, const uint32_t *numbers)
{
    uint32_t again[NUMBERS];
    require(length_of(numbers[MAP]) == written, "a frame has its map's length");
    require(library_read(bytes, written, again) == JIZKORMA_ACCEPTED,
            "a frame that was written can be read");
    require(again[MAP] == numbers[MAP], "a frame that was written has its map");
    for (int field = STATION; field < NUMBERS; field++) {
        uint32_t expected = has_field(numbers[MAP], field) ? numbers[field] : 0;
        require(again[field] == expected, "a frame that was written has its fields");
    }
}

int LLVMFuzzerTestOneInput(const uint8_t *data, size_t size)
{
    struct input input = {.length = 0};
    uint8_t before[LONGEST] = {0};
    uint8_t expected[LONGEST];
    uint32_t expected_written;
    memcpy(&input, data, size < sizeof input ? size : sizeof input);
    for (size_t i = 0; i < input.length; i++) {
        before[i] = (uint8_t)(input.filling - i);
    }
    memcpy(expected, before, sizeof expected);
    uint32_t expected_answer =
        reference_frame_write(expected, input.length, &expected_written, input.number);
    for (int place = 0; place < PLACES; place++) {
        uint32_t written;
        struct lent lent = lend(place, before, input.length);
        uint32_t answer = library_write(lent.bytes, input.length, &written, input.number);
        require(may_answer(answer), "the writer gives a documented answer");
        if (answer == JIZKORMA_ACCEPTED) {
            require(written <= input.length, "a frame fits into its buffer");
            check_accepted(lent.bytes, written, input.number);
            require(memcmp(lent.bytes + written, before + written, input.length - written) == 0,
                    "only the frame's bytes are touched");
        } else {
            require(written == 0, "with a refusal 0 bytes are written");
            require(memcmp(lent.bytes, before, input.length) == 0,
                    "with a refusal the buffer is untouched");
        }
        require(answer == expected_answer, "the answer is the reference's");
        require(written == expected_written, "the length is the reference's");
        take_back(&lent, expected);
        note(answer, input.length, input.number[MAP]);
    }
    return 0;
}
