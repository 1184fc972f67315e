// The header as C++ reads it: twice without harm, each type by its plain name, each constant where one is needed.
#include "bivamolune.h"
#include "bivamolune.h"

static_assert(BIVAMOLUNE_FLOORS_AT + BIVAMOLUNE_FLOORS_MOST * BIVAMOLUNE_FLOOR_SIZE
    + BIVAMOLUNE_DELTAS_MOST * BIVAMOLUNE_MESSAGE_MOST <= BIVAMOLUNE_IMAGE_SIZE, "an image has room for all floors and deltas");
static_assert(BIVAMOLUNE_NOT_THERE == 12 && BIVAMOLUNE_ZERO_NUMBER == 14 && BIVAMOLUNE_MANY_FLOORS == 16
    && BIVAMOLUNE_ACCEPTED == 0, "codes are constants");

int main() {
    const bivamolune_result wanted = BIVAMOLUNE_ACCEPTED;
    static uint8_t image[BIVAMOLUNE_IMAGE_SIZE];
    static uint8_t steps[BIVAMOLUNE_STEP_ROOM];
    const uint8_t message[BIVAMOLUNE_MESSAGE_LEAST] = {};
    if (bivamolune_empty(image, sizeof image) != wanted) return 1;
    if (bivamolune_floor(image, 0) != nullptr || bivamolune_bytes_used(image) != BIVAMOLUNE_FLOORS_AT) return 1;
    if (bivamolune_purge(image, sizeof image, 0) != wanted || bivamolune_purge(image, sizeof image, 1) != BIVAMOLUNE_PAST_LOG) return 1;
    const uint32_t answer = bivamolune_deliver(image, sizeof image, message, sizeof message, steps, sizeof steps);
    static uint8_t text[BIVAMOLUNE_TEXT_ROOM];
    const uint32_t written = bivamolune_write_sequences(message, BIVAMOLUNE_SEQUENCE_SIZE, text, sizeof text);
    return bivamolune_code(answer) == BIVAMOLUNE_WRONG_LAYOUT && bivamolune_code(written) == BIVAMOLUNE_ZERO_NUMBER ? 0 : 1;
}
