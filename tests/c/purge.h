/* What the hosts that purge share, beside station.h: the call, and an image that is put together from its parts, to hold the
 * station's image against. C++ reads it as well. (old_images.c has station.h and a library of before there was a purge.) */
#ifndef PURGE_H
#define PURGE_H

#include "station.h"

static inline uint32_t purge(uint32_t k) { return bivamolune_purge(image, sizeof image, k); }

/* Whether a purge of so many answers a code, and no byte of the image changes. */
static inline int purge_leaves(uint32_t k, uint32_t code) {
    uint8_t before[BIVAMOLUNE_IMAGE_SIZE];
    memcpy(before, image, sizeof image);
    return purge(k) == code && memcmp(before, image, sizeof image) == 0;
}

/* ---- an image from its parts: expect, then floors, then messages, log before held; values at any time */
static uint8_t expected[BIVAMOLUNE_IMAGE_SIZE];
static size_t expected_end;

/* Begins with nothing but the purged block and group, and with so many deltas in the log; the others will be held ones. */
static inline void expect(uint32_t logged, uint32_t block, uint32_t group) {
    memset(expected, 0, sizeof expected);
    put(expected, logged, 2);
    put(expected + 4, 32, 2);
    put(expected + 6, 544, 2);
    put(expected + 12, 544, 2);
    put(expected + 14, 288, 2);
    put(expected + 16, block, 4);
    put(expected + 20, group, 4);
    expected_end = 544;
}

static inline void expect_floor(uint8_t line, uint16_t number) {
    put_sequence(expected + expected_end, line, number);
    expected_end += 12;
    expected[11]++;
    put(expected + 6, (uint32_t)expected_end, 2);
}

static inline void expect_value(uint8_t tag, int32_t base_value, int32_t value) {
    put(expected + 288 + 4 * (size_t)tag, (uint32_t)base_value, 4);
    put(expected + 32 + 4 * (size_t)tag, (uint32_t)value, 4);
}

static inline void expect_message(struct delta d) {
    memcpy(expected + expected_end, d.bytes, d.size);
    expected_end += d.size;
}

static inline void expect_held(struct delta d) {
    expect_message(d);
    expected[3]++;
}

/* Whether the station's image is that one, in every byte, and is judged to be one. */
static inline int is_expected(void) {
    put(expected + 8, (uint32_t)expected_end, 2);
    return memcmp(image, expected, sizeof image) == 0 && judge(image) == 0;
}

#endif
