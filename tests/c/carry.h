/* Carrying a station over from an image of before version 0.5.0, whose header has 16 bytes. For a host to copy: C11 and C++17,
 * no allocation.
 *
 * Of what a host loads, ask bivamolune_setpoint's code. If it is 0, go on from it. If it is 2, the bytes may be such an image:
 * carry it into another buffer, save that one, and go on from it. No bytes are an image of both kinds. Keep the old one until the
 * new one is saved, as a save under the same name does, by rename or in places (save.h).
 *
 * The station is then the same: its log in the same order, its held deltas, its setpoints, and no floor. So it keeps its line,
 * and hardware that shows the old image's values shows the new one's. Messages have not changed: stations that were carried over
 * and stations that were not may exchange them.
 *
 * Any bytes are safe, and carried is exactly what was an image of before: header, counts, every message, the values, the order of
 * log and held ones and the zeros are looked at. So what code 2 did not find then is not found now: a change that makes another
 * right delta of one, where nothing else in the image depends on it, as a torn save can leave a held delta that nobody sent. It is
 * carried as it is. Nor is it asked whose image it is, or whether it is the newest. */
#ifndef BIVAMOLUNE_CARRY_H
#define BIVAMOLUNE_CARRY_H

#include "bivamolune.h"

#include <string.h>

/* ---- the layout of before: all its numbers stand here, and none of the present layout's is used for it */
#define BIVAMOLUNE_OLD_IMAGE_SIZE 16384
#define BIVAMOLUNE_OLD_LOG_COUNT_AT 0
#define BIVAMOLUNE_OLD_HELD_COUNT_AT 2
#define BIVAMOLUNE_OLD_OFFSET_OF_VALUES_AT 4   /* has the number of BIVAMOLUNE_OLD_VALUES_AT */
#define BIVAMOLUNE_OLD_OFFSET_OF_MESSAGES_AT 6 /* has that of BIVAMOLUNE_OLD_MESSAGES_AT */
#define BIVAMOLUNE_OLD_USED_AT 8
#define BIVAMOLUNE_OLD_ZEROS_AT 10             /* up to the values */
#define BIVAMOLUNE_OLD_VALUES_AT 16            /* 64 of four bytes, up to the messages */
#define BIVAMOLUNE_OLD_MESSAGES_AT 272
#define BIVAMOLUNE_OLD_DELTAS_MOST 64
#define BIVAMOLUNE_OLD_LENGTH_AT 4             /* of a message */
#define BIVAMOLUNE_OLD_LENGTH_LEAST 48
#define BIVAMOLUNE_OLD_LENGTH_MOST 200

/* So many messages, none of them longer, end within the buffer. No read needs to ask for its end. */
#if BIVAMOLUNE_OLD_MESSAGES_AT + BIVAMOLUNE_OLD_DELTAS_MOST * BIVAMOLUNE_OLD_LENGTH_MOST > BIVAMOLUNE_OLD_IMAGE_SIZE
#error "the messages of an old image could pass its end"
#endif

static inline uint32_t bivamolune_old_log_count(const uint8_t *old) {
    return bivamolune_two_bytes_at(old, BIVAMOLUNE_OLD_LOG_COUNT_AT);
}
static inline uint32_t bivamolune_old_held_count(const uint8_t *old) {
    return bivamolune_two_bytes_at(old, BIVAMOLUNE_OLD_HELD_COUNT_AT);
}
static inline size_t bivamolune_old_bytes_used(const uint8_t *old) {
    return bivamolune_two_bytes_at(old, BIVAMOLUNE_OLD_USED_AT);
}

/* Whether all bytes from one place up to another are zero. */
static inline int bivamolune_old_is_zero(const uint8_t *old, size_t from, size_t end) {
    while (from < end && old[from] == 0) from++;
    return from >= end;
}

/* Whether the header is one of before, its counts at most what it may have. */
static inline int bivamolune_old_has_header(const uint8_t *old) {
    return bivamolune_old_log_count(old) + bivamolune_old_held_count(old) <= BIVAMOLUNE_OLD_DELTAS_MOST
        && bivamolune_two_bytes_at(old, BIVAMOLUNE_OLD_OFFSET_OF_VALUES_AT) == BIVAMOLUNE_OLD_VALUES_AT
        && bivamolune_two_bytes_at(old, BIVAMOLUNE_OLD_OFFSET_OF_MESSAGES_AT) == BIVAMOLUNE_OLD_MESSAGES_AT
        && bivamolune_old_is_zero(old, BIVAMOLUNE_OLD_ZEROS_AT, BIVAMOLUNE_OLD_VALUES_AT);
}

/* ---- carrying */

/* Delivers the messages one by one, as they stand; whether all were accepted and end where the bytes used do. */
static inline int bivamolune_carry_messages(const uint8_t *old, uint8_t *image, uint8_t *steps) {
    uint32_t left = bivamolune_old_log_count(old) + bivamolune_old_held_count(old);
    size_t at = BIVAMOLUNE_OLD_MESSAGES_AT;
    for (; left > 0; left--) {
        size_t length = bivamolune_two_bytes_at(old, at + BIVAMOLUNE_OLD_LENGTH_AT);
        if (length < BIVAMOLUNE_OLD_LENGTH_LEAST || length > BIVAMOLUNE_OLD_LENGTH_MOST) return 0;
        if (!bivamolune_accepted(
                bivamolune_deliver(image, BIVAMOLUNE_IMAGE_SIZE, old + at, length, steps, BIVAMOLUNE_STEP_ROOM))) return 0;
        at += length;
    }
    return at == bivamolune_old_bytes_used(old);
}

/* Whether the image that the messages have made says what the old one said: counts, values, and the messages in their order,
 * which in both end where the bytes used do. A set of deltas has one image: an old one that is not its set's is found. */
static inline int bivamolune_is_carried(const uint8_t *old, const uint8_t *image) {
    size_t length = bivamolune_old_bytes_used(old) - BIVAMOLUNE_OLD_MESSAGES_AT;
    return bivamolune_log_count(image) == bivamolune_old_log_count(old)
        && bivamolune_held_count(image) == bivamolune_old_held_count(old)
        && memcmp(image + BIVAMOLUNE_VALUES_AT, old + BIVAMOLUNE_OLD_VALUES_AT, 4 * BIVAMOLUNE_TAGS) == 0
        && memcmp(image + bivamolune_bytes_used(image) - length, old + BIVAMOLUNE_OLD_MESSAGES_AT, length) == 0
        && bivamolune_old_is_zero(old, bivamolune_old_bytes_used(old), BIVAMOLUNE_OLD_IMAGE_SIZE);
}

/* Carries an old image over into a buffer of BIVAMOLUNE_IMAGE_SIZE bytes, and answers whether it could. If not, the old bytes
 * are no image of before, and the buffer is all zero, which is no image either: no call goes on from it. The old bytes are only
 * read, and may be NULL with size 0. The step buffer, of BIVAMOLUNE_STEP_ROOM bytes, is lent for room; what it is left with is
 * not for the hardware. The buffers do not overlap. */
static inline int bivamolune_carry(const uint8_t *old, size_t old_size, uint8_t *image, uint8_t *steps) {
    if (old_size == BIVAMOLUNE_OLD_IMAGE_SIZE && bivamolune_old_has_header(old)
        && bivamolune_empty(image, BIVAMOLUNE_IMAGE_SIZE) == BIVAMOLUNE_ACCEPTED && bivamolune_carry_messages(old, image, steps)
        && bivamolune_is_carried(old, image)) return 1;
    memset(image, 0, BIVAMOLUNE_IMAGE_SIZE);
    return 0;
}

#endif
