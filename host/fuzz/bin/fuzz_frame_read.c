/*
 * Fuzz target of the frame reader: any bytes.
 */
#include "fuzz_frame.h"

int LLVMFuzzerInitialize(int *argc, char ***argv)
{
    (void)argc;
    (void)argv;
    make_room();
    atexit(print_seen);
    return 0;
}

static bool may_answer(uint32_t answer)
{
    switch (answer) {
    case JIZKORMA_ACCEPTED:
    case JIZKORMA_REFUSAL_ADDRESS:
    case JIZKORMA_REFUSAL_LENGTH:
    case JIZKORMA_REFUSAL_MAP:
    case JIZKORMA_REFUSAL_STATION:
    case JIZKORMA_REFUSAL_TURN:
    case JIZKORMA_REFUSAL_CODE: return true;
    default: return false;
    }
}

/* A frame that was read: its map's fields and no others, and written again the same bytes. */
static void check_accepted(const uint8_t *data, size_t size, const uint32_t *numbers)
{
    uint8_t again[JIZKORMA_FRAME_LONGEST];
    uint32_t written;
    require(length_of(numbers[MAP]) == size, "a frame has its map's length");
    require(numbers[MAP] == data[0], "the map is the first byte");
    for (int field = STATION; field < NUMBERS; field++) {
        require(has_field(numbers[MAP], field) || numbers[field] == 0,
                "a field that the map lacks reads as 0");
    }
    require(library_write(again, sizeof again, &written, numbers) == JIZKORMA_ACCEPTED,
            "a frame that was read can be written");
    require(written == size && memcmp(again, data, size) == 0,
            "a frame that was read is written again as the same bytes");
}

int LLVMFuzzerTestOneInput(const uint8_t *data, size_t size)
{
    uint32_t expected[NUMBERS];
    uint32_t expected_answer = reference_frame_read(data, size, expected);
    for (int place = 0; place < PLACES; place++) {
        uint32_t numbers[NUMBERS];
        struct lent lent = lend(place, data, size);
        uint32_t answer = library_read(lent.bytes, size, numbers);
        take_back(&lent, data);
        require(may_answer(answer), "the reader gives a documented answer");
        if (answer == JIZKORMA_ACCEPTED) {
            check_accepted(data, size, numbers);
        } else {
            for (int i = 0; i < NUMBERS; i++) {
                require(numbers[i] == 0, "with a refusal every number handed back is 0");
            }
        }
        require(answer == expected_answer, "the answer is the reference's");
        require(memcmp(numbers, expected, sizeof numbers) == 0, "the numbers are the reference's");
        note(answer, size, size > 0 ? data[0] : 0);
    }
    return 0;
}
