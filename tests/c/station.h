/* What the hosts share: checks that are counted, deltas written by hand, and a station. C++ reads it as well.
 * A check that passes prints nothing; the last line counts them, and the exit status is 1 if one failed. */
#ifndef STATION_H
#define STATION_H

#include "bivamolune.h"

#include <stdio.h>
#include <stdlib.h>
#include <string.h>

static unsigned passed, failed;

static inline void check(int right, const char *what) {
    if (right) {
        passed++;
    } else {
        failed++;
        printf("failed: %s\n", what);
    }
}

static inline int report(void) {
    printf("%u passed, %u failed\n", passed, failed);
    return failed != 0;
}

/* A plain delta of group 1, with one command or more and at most one dependency. */
struct delta {
    uint8_t bytes[200];
    size_t size;
};

static inline void put(uint8_t *at, uint32_t value, size_t size) {
    for (size_t i = size; i-- > 0; value /= 256) at[i] = (uint8_t)(value % 256);
}

static inline void put_sequence(uint8_t *at, uint8_t line, uint16_t number) {
    memset(at, 0, 12);
    at[5] = line;
    at[9] = 1;
    put(at + 10, number, 2);
}

static inline struct delta delta(uint8_t line, uint16_t number, uint8_t operation, uint8_t tag, int32_t value) {
    struct delta d = {{0}, 48};
    d.bytes[0] = 1;
    d.bytes[3] = 1;
    put(d.bytes + 4, 48, 2);
    put(d.bytes + 6, 40, 2);
    put(d.bytes + 8, 40, 2);
    put_sequence(d.bytes + 12, line, number);
    put(d.bytes + 24, 1, 4);
    d.bytes[40] = operation;
    d.bytes[41] = tag;
    put(d.bytes + 44, (uint32_t)value, 4);
    return d;
}

/* With a command more, as a delta that has room for it. */
static inline struct delta commanding(struct delta d, uint8_t operation, uint8_t tag, int32_t value) {
    d.bytes[d.size] = operation;
    d.bytes[d.size + 1] = tag;
    put(d.bytes + d.size + 4, (uint32_t)value, 4);
    d.bytes[3]++;
    d.size += 8;
    put(d.bytes + 4, (uint32_t)d.size, 2);
    return d;
}

static inline struct delta prioritised(struct delta d, uint32_t block, uint32_t priority) {
    d.bytes[1] = 1;
    put(d.bytes + 28, block, 4);
    put(d.bytes + 32, priority, 4);
    return d;
}

static inline struct delta naming(struct delta d, uint8_t line, uint16_t number) {
    memmove(d.bytes + 52, d.bytes + 40, 8);
    put_sequence(d.bytes + 40, line, number);
    d.bytes[2] = 1;
    d.size = 60;
    put(d.bytes + 4, 60, 2);
    put(d.bytes + 8, 52, 2);
    return d;
}

/* ---- a station */
static uint8_t image[BIVAMOLUNE_IMAGE_SIZE];
static uint8_t steps[BIVAMOLUNE_STEP_ROOM];

static inline void begin(void) {
    memset(image, 0xEE, sizeof image);
    memset(steps, 0xEE, sizeof steps);
    check(bivamolune_empty(image, sizeof image) == 0, "empty");
}

static inline uint32_t deliver(struct delta d) {
    memset(steps, 0xEE, sizeof steps);
    return bivamolune_deliver(image, sizeof image, d.bytes, d.size, steps, sizeof steps);
}

/* A station whose old end was purged, laid down by hand and by no call. Its floors are A5 and CFFFF, the greatest purged block is 4
 * and the greatest purged group 9. Purged deltas left tag 3 at 700 and tag 63 at -20; the log is A6, which adds 20 to tag 3. */
static inline void lay_floors(void) {
    static const uint8_t header[32] = {
        0, 1, 0, 0,          /* one in the log, none held */
        0, 32, 2, 56,        /* values at 32, messages at 568 */
        2, 104, 0, 2,        /* 616 bytes used, two floors */
        2, 32, 1, 32,        /* floors at 544, base values at 288 */
        0, 0, 0, 4,          /* the purged block */
        0, 0, 0, 9,          /* the purged group */
        0, 0, 0, 0, 0, 0, 0, 0,
    };
    static const uint8_t floors[24] = {
        0, 0, 0, 0, 0, 10, 0, 0, 0, 1, 0, 5,
        0, 0, 0, 0, 0, 12, 0, 0, 0, 1, 0xFF, 0xFF,
    };
    static const uint8_t a6[48] = {
        1, 0, 0, 1, 0, 48, 0, 40, 0, 40, 0, 0,   /* plain, one command */
        0, 0, 0, 0, 0, 10, 0, 0, 0, 1, 0, 6,     /* A6 */
        0, 0, 0, 1, 0, 0, 0, 0, 0, 0, 0, 0, 0, 0, 0, 0, /* group 1 */
        2, 3, 0, 0, 0, 0, 0, 20,                 /* adds 20 to tag 3 */
    };
    static const uint8_t seven_hundred[4] = {0, 0, 2, 188}, more[4] = {0, 0, 2, 208}, less[4] = {0xFF, 0xFF, 0xFF, 0xEC};
    memset(image, 0, sizeof image);
    memset(steps, 0xEE, sizeof steps);
    memcpy(image, header, sizeof header);
    memcpy(image + 44, more, 4);            /* tag 3 */
    memcpy(image + 284, less, 4);           /* tag 63 */
    memcpy(image + 300, seven_hundred, 4);  /* base value of tag 3 */
    memcpy(image + 540, less, 4);           /* base value of tag 63 */
    memcpy(image + 544, floors, sizeof floors);
    memcpy(image + 568, a6, sizeof a6);
}

/* The same with no delta left. */
static inline void lay_emptied(void) {
    lay_floors();
    image[1] = 0;
    image[9] = 56;
    memcpy(image + 44, image + 300, 4);
    memset(image + 568, 0, 48);
}

/* The code that judges the image. */
static inline uint32_t judge(const uint8_t *bytes) {
    return bivamolune_setpoint_code(bivamolune_setpoint(bytes, BIVAMOLUNE_IMAGE_SIZE, 0));
}

static inline int32_t setpoint(uint32_t tag) { return bivamolune_value(image, tag); }

/* Counts: L, H and the bytes used. */
static inline int counts(uint32_t l, uint32_t h, uint32_t used) {
    return bivamolune_log_count(image) == l && bivamolune_held_count(image) == h && bivamolune_bytes_used(image) == used;
}

/* Writes a step from its words, such as "xA1 3=1500 4=-20": "u" or "x", a line's letter and a digit, then a tag and a value
 * for each pair. What follows the words is handed back. */
static inline const char *put_step(uint8_t *step, const char *words) {
    uint8_t *pair = step + 16;
    memset(step, 0, 80);
    step[0] = words[0] == 'u' ? 1 : 2;
    put_sequence(step + 4, (uint8_t)(words[1] - 'A' + 10), (uint16_t)(words[2] - '0'));
    for (words += 3; *words == ' '; pair += 8) {
        char *end;
        put(pair, (uint32_t)strtol(words, &end, 10), 4);
        put(pair + 4, (uint32_t)strtol(end + 1, &end, 10), 4);
        step[3]++;
        words = end;
    }
    return words;
}

/* The answer, and the steps in words, with a comma between; the rest of the buffer is as it was. */
static inline int answers(uint32_t answer, uint32_t code, uint32_t undos, uint32_t executions, const char *words) {
    static uint8_t expected[BIVAMOLUNE_STEP_ROOM];
    uint8_t *end = expected;
    memset(expected, 0xEE, sizeof expected);
    while (*words != 0) {
        words = put_step(end, words);
        words += *words == ',';
        end += 80;
    }
    return bivamolune_code(answer) == code && bivamolune_undos(answer) == undos
        && bivamolune_executions(answer) == executions && end == expected + 80 * (undos + executions)
        && memcmp(steps, expected, sizeof expected) == 0;
}

#endif
