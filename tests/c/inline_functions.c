/* Every inline function of the header, on answers that are put together from their parts and on bytes that are laid down one
 * by one. What is expected is written out or counted up, never taken apart as the header does it. No call is made. C++ reads
 * it as well. */
#include "station.h"

#define CODES 17
#define UNDOS 64
#define EXECUTIONS 65
#define LENGTHS 201
#define OFFSETS 16384
#define LAST_OF_FOUR_BYTES 4294967295u

/* Numbers of four bytes: as a value, as a word and byte by byte. */
static const struct number {
    int32_t value;
    uint32_t word;
    uint8_t bytes[4];
} numbers[] = {
    {0, 0, {0x00, 0x00, 0x00, 0x00}},
    {1, 1, {0x00, 0x00, 0x00, 0x01}},
    {255, 255, {0x00, 0x00, 0x00, 0xFF}},
    {256, 256, {0x00, 0x00, 0x01, 0x00}},
    {1500, 1500, {0x00, 0x00, 0x05, 0xDC}},
    {65535, 65535, {0x00, 0x00, 0xFF, 0xFF}},
    {65536, 65536, {0x00, 0x01, 0x00, 0x00}},
    {999999, 999999, {0x00, 0x0F, 0x42, 0x3F}},
    {1000000, 1000000, {0x00, 0x0F, 0x42, 0x40}},
    {16777216, 16777216, {0x01, 0x00, 0x00, 0x00}},
    {16909060, 16909060, {0x01, 0x02, 0x03, 0x04}},
    {2147483647, 2147483647, {0x7F, 0xFF, 0xFF, 0xFF}},
    {INT32_MIN, 2147483648u, {0x80, 0x00, 0x00, 0x00}},
    {-1000000, 4293967296u, {0xFF, 0xF0, 0xBD, 0xC0}},
    {-999999, 4293967297u, {0xFF, 0xF0, 0xBD, 0xC1}},
    {-65536, 4294901760u, {0xFF, 0xFF, 0x00, 0x00}},
    {-256, 4294967040u, {0xFF, 0xFF, 0xFF, 0x00}},
    {-20, 4294967276u, {0xFF, 0xFF, 0xFF, 0xEC}},
    {-1, 4294967295u, {0xFF, 0xFF, 0xFF, 0xFF}},
};
#define NUMBERS (sizeof numbers / sizeof numbers[0])

static void run_code_names(void) {
    static const char *const names[CODES] = {
        "accepted", "wrong size", "no image", "wrong layout", "wrong number", "wrong dependencies", "wrong content", "conflict",
        "full", "held line", "past limit", "many dependencies", "not there", "wrong form", "zero number", "past log", "many floors",
    };
    int none = strcmp(bivamolune_code_name(LAST_OF_FOUR_BYTES), "no code") == 0;
    for (uint32_t code = 0; code < CODES; code++) check(strcmp(bivamolune_code_name(code), names[code]) == 0, names[code]);
    for (uint32_t code = CODES; code < 70000; code++) none = none && strcmp(bivamolune_code_name(code), "no code") == 0;
    check(none, "no other code has a name");
}

/* ---- answers of 32 bits: code + 256 times undos + 65536 times executions, or code + 256 times length */
static int counts_come_out(uint32_t code, uint32_t undos, uint32_t executions) {
    uint32_t answer = code + 256 * undos + 65536 * executions;
    return bivamolune_code(answer) == code && (bivamolune_accepted(answer) != 0) == (code == 0)
        && bivamolune_undos(answer) == undos && bivamolune_executions(answer) == executions;
}

static int length_comes_out(uint32_t code, uint32_t length) {
    uint32_t answer = code + 256 * length;
    return bivamolune_code(answer) == code && (bivamolune_accepted(answer) != 0) == (code == 0)
        && bivamolune_composed_length(answer) == length && bivamolune_written_length(answer) == length;
}

static void run_answers(void) {
    for (uint32_t code = 0; code < CODES; code++) {
        int counted = 1, measured = 1;
        for (uint32_t undos = 0; undos < UNDOS; undos++)
            for (uint32_t executions = 0; executions < EXECUTIONS; executions++)
                counted = counted && counts_come_out(code, undos, executions);
        for (uint32_t length = 0; length < LENGTHS; length++) measured = measured && length_comes_out(code, length);
        check(counted, "every count beside a code");
        check(measured, "every length beside a code");
        check(counts_come_out(code, 255, 0) && counts_come_out(code, 0, 65535) && counts_come_out(code, 255, 65535),
            "the greatest counts beside a code");
        check(length_comes_out(code, 16777215), "the greatest length beside a code");
    }
    check(counts_come_out(255, 0, 0) && counts_come_out(255, 255, 65535) && length_comes_out(255, 16777215), "the last code");
}

/* ---- answers of 64 bits: code + 2^32 times the value's word, or code + 256 times length + 2^32 times offset */
static int value_comes_out(uint32_t code, uint32_t word, int32_t value) {
    uint64_t answer = code + UINT64_C(4294967296) * word;
    return bivamolune_setpoint_code(answer) == code && bivamolune_setpoint_value(answer) == value;
}

static int part_comes_out(uint32_t code, uint32_t length, uint32_t offset) {
    uint64_t answer = code + UINT64_C(256) * length + UINT64_C(4294967296) * offset;
    return bivamolune_log_message_code(answer) == code && bivamolune_log_message_length(answer) == length
        && bivamolune_log_message_offset(answer) == offset;
}

/* Every value of a setpoint; the words count up as the values do, and begin again at 0. */
static void run_values(void) {
    uint32_t word = 4293967296u;
    int all = 1;
    for (int32_t value = -1000000; value <= 1000000; value++, word++)
        all = all && value_comes_out(0, word, value) && bivamolune_signed(word) == value;
    check(all && word == 1000001, "every value");
    for (uint32_t code = 0; code < CODES; code++) {
        int right = 1;
        for (size_t i = 0; i < NUMBERS; i++) right = right && value_comes_out(code, numbers[i].word, numbers[i].value);
        check(right, "values beside a code");
    }
    check(value_comes_out(255, 0, 0) && value_comes_out(255, LAST_OF_FOUR_BYTES, -1), "the last code beside a value");
}

static void run_parts(void) {
    for (uint32_t code = 0; code < CODES; code++) {
        int right = 1;
        for (uint32_t length = 0; length < LENGTHS; length++)
            for (uint32_t offset = 0; offset < OFFSETS; offset++) right = right && part_comes_out(code, length, offset);
        check(right, "every length and every offset beside a code");
        check(part_comes_out(code, 16777215, 0) && part_comes_out(code, 0, LAST_OF_FOUR_BYTES)
            && part_comes_out(code, 16777215, LAST_OF_FOUR_BYTES), "the greatest length and offset beside a code");
    }
    check(part_comes_out(255, 0, 0) && part_comes_out(255, 16777215, LAST_OF_FOUR_BYTES), "the last code beside a part");
}

/* ---- numbers in buffers */

/* Whether a reader gives every number of two bytes that begin there, between other bytes. */
static int counts_up(uint32_t (*reader)(const uint8_t *, size_t), size_t begin) {
    uint8_t bytes[BIVAMOLUNE_IMAGE_SIZE];
    uint32_t expected = 0;
    int right = 1;
    memset(bytes, 0xEE, sizeof bytes);
    for (unsigned high = 0; high < 256; high++)
        for (unsigned low = 0; low < 256; low++) {
            bytes[begin] = (uint8_t)high;
            bytes[begin + 1] = (uint8_t)low;
            right = right && reader(bytes, begin) == expected++;
        }
    return right && expected == 65536;
}

static void run_two_bytes(void) {
    for (size_t at = 0; at < 4; at++) check(counts_up(bivamolune_two_bytes_at, at), "every number of two bytes");
}

/* One byte of four counts up, and the others are zero. */
static int byte_weighs(size_t place, uint32_t weight) {
    uint8_t bytes[4] = {0, 0, 0, 0};
    uint32_t expected = 0;
    int right = 1;
    for (unsigned byte = 0; byte < 256; byte++, expected += weight) {
        bytes[place] = (uint8_t)byte;
        right = right && bivamolune_four_bytes_at(bytes, 0) == expected;
    }
    return right;
}

static void run_four_bytes(void) {
    check(byte_weighs(3, 1) && byte_weighs(2, 256) && byte_weighs(1, 65536) && byte_weighs(0, 16777216), "each byte of four");
    for (size_t i = 0; i < NUMBERS; i++) {
        int right = bivamolune_signed(numbers[i].word) == numbers[i].value;
        for (size_t at = 0; at < 4; at++) {
            uint8_t bytes[8];
            memset(bytes, 0xEE, sizeof bytes);
            memcpy(bytes + at, numbers[i].bytes, 4);
            right = right && bivamolune_four_bytes_at(bytes, at) == numbers[i].word;
        }
        check(right, "a number of four bytes at any place");
    }
}

/* ---- steps */
static const uint8_t whole_step[80] = {
    /* undo, eight pairs */
    0x01, 0x00, 0x00, 0x08,
    /* the sequence */
    0xA0, 0xA1, 0xA2, 0xA3, 0xA4, 0xA5, 0xA6, 0xA7, 0xA8, 0xA9, 0xAA, 0xAB,
    /* tag 0 is -1000000, 63 is 1000000, 1 is -1, 31 is 0, 32 is 1500, 62 is -20 */
    0x00, 0x00, 0x00, 0x00, 0xFF, 0xF0, 0xBD, 0xC0,
    0x00, 0x00, 0x00, 0x3F, 0x00, 0x0F, 0x42, 0x40,
    0x00, 0x00, 0x00, 0x01, 0xFF, 0xFF, 0xFF, 0xFF,
    0x00, 0x00, 0x00, 0x1F, 0x00, 0x00, 0x00, 0x00,
    0x00, 0x00, 0x00, 0x20, 0x00, 0x00, 0x05, 0xDC,
    0x00, 0x00, 0x00, 0x3E, 0xFF, 0xFF, 0xFF, 0xEC,
    /* two that no step has, to see every byte */
    0x01, 0x02, 0x03, 0x04, 0x7F, 0xFF, 0xFF, 0xFF,
    0xFF, 0xFF, 0xFF, 0xFF, 0x80, 0x00, 0x00, 0x00,
};

/* The pairs of that step, and no ninth. */
static void run_whole_pairs(const uint8_t *step) {
    static const uint32_t tags[8] = {0, 63, 1, 31, 32, 62, 16909060, 4294967295u};
    static const int32_t values[8] = {-1000000, 1000000, -1, 0, 1500, -20, 2147483647, INT32_MIN};
    static const uint32_t words[8] = {4293967296u, 1000000, 4294967295u, 0, 1500, 4294967276u, 2147483647, 2147483648u};
    static const uint32_t beyond[] = {8, 9, 16, 255, 256, 8191, 65536, 536870910, 536870912, 2147483648u, 4294967295u};
    for (uint32_t pair = 0; pair < 8; pair++) {
        check(bivamolune_pair_tag(step, pair) == tags[pair], "a tag");
        check(bivamolune_pair_value(step, pair) == values[pair], "a value");
        check(bivamolune_pair_part(step, pair, 0) == tags[pair] && bivamolune_pair_part(step, pair, 4) == words[pair],
            "the parts of a pair");
    }
    for (size_t i = 0; i < sizeof beyond / sizeof beyond[0]; i++)
        check(bivamolune_pair_tag(step, beyond[i]) == 0 && bivamolune_pair_value(step, beyond[i]) == 0
            && bivamolune_pair_part(step, beyond[i], 0) == 0 && bivamolune_pair_part(step, beyond[i], 4) == 0, "no ninth pair");
}

/* The same step at an odd address as well. */
static void run_whole_step(void) {
    uint8_t bytes[82];
    for (size_t at = 0; at < 2; at++) {
        const uint8_t *step = bytes + at;
        memset(bytes, 0xEE, sizeof bytes);
        memcpy(bytes + at, whole_step, sizeof whole_step);
        check(bivamolune_step_kind(step) == 1, "the kind of a step");
        check(bivamolune_pair_count(step) == 8, "the count of a step");
        check(bivamolune_step_sequence(step) == bytes + at + 4, "the sequence of a step");
        run_whole_pairs(step);
    }
}

/* Every kind and every count of three bytes, beside other bytes. */
static void run_kinds_and_counts(void) {
    uint8_t step[80];
    uint32_t expected = 0;
    int kinds = 1, counts = 1;
    memset(step, 0xEE, sizeof step);
    for (unsigned kind = 0; kind < 256; kind++) {
        step[0] = (uint8_t)kind;
        kinds = kinds && bivamolune_step_kind(step) == kind;
    }
    check(kinds, "every kind");
    for (unsigned high = 0; high < 256; high++)
        for (unsigned middle = 0; middle < 256; middle++)
            for (unsigned low = 0; low < 256; low++) {
                step[1] = (uint8_t)high;
                step[2] = (uint8_t)middle;
                step[3] = (uint8_t)low;
                counts = counts && bivamolune_pair_count(step) == expected++;
            }
    check(counts && expected == 16777216, "every count");
}

/* Every tag and every number as each of the eight pairs, beside other bytes. */
static void run_pairs(void) {
    static const size_t begins[8] = {16, 24, 32, 40, 48, 56, 64, 72};
    for (uint32_t pair = 0; pair < 8; pair++) {
        uint8_t step[80];
        int tags = 1, values = 1;
        for (uint8_t tag = 0; tag < 64; tag++) {
            const uint8_t bytes[4] = {0, 0, 0, tag};
            memset(step, 0xEE, sizeof step);
            memcpy(step + begins[pair], bytes, 4);
            tags = tags && bivamolune_pair_tag(step, pair) == tag && bivamolune_pair_part(step, pair, 0) == tag;
        }
        for (size_t i = 0; i < NUMBERS; i++) {
            memset(step, 0xEE, sizeof step);
            memcpy(step + begins[pair] + 4, numbers[i].bytes, 4);
            values = values && bivamolune_pair_value(step, pair) == numbers[i].value
                && bivamolune_pair_part(step, pair, 4) == numbers[i].word;
        }
        check(tags, "every tag of a pair");
        check(values, "values of a pair");
    }
}

/* ---- images */

/* The counts as readers that know their place. */
static uint32_t log_count(const uint8_t *bytes, size_t begin) { return begin == 0 ? bivamolune_log_count(bytes) : 0; }
static uint32_t held_count(const uint8_t *bytes, size_t begin) { return begin == 2 ? bivamolune_held_count(bytes) : 0; }
static uint32_t bytes_used(const uint8_t *bytes, size_t begin) { return begin == 8 ? bivamolune_bytes_used(bytes) : 0; }
static uint32_t floor_count(const uint8_t *bytes, size_t begin) { return begin == 10 ? bivamolune_floor_count(bytes) : 0; }

static void run_image_counts(void) {
    check(counts_up(log_count, 0), "every count of the log");
    check(counts_up(held_count, 2), "every count of the held ones");
    check(counts_up(bytes_used, 8), "every number of bytes used");
    check(counts_up(floor_count, 10), "every number of floors");
}

/* A reader of 64 values, of which the first begins there and the last ends there. */
static void run_image_values(int32_t (*reader)(const uint8_t *, uint32_t), size_t first, size_t end) {
    static const uint32_t beyond[] = {64, 65, 127, 255, 256, 4092, 65536, 1073741820, 1073741824, 2147483648u, 4294967295u};
    uint8_t bytes[BIVAMOLUNE_IMAGE_SIZE];
    uint8_t *begin = bytes + first;
    for (uint32_t tag = 0; tag < 64; tag++, begin += 4) {
        int right = 1;
        for (size_t i = 0; i < NUMBERS; i++) {
            memset(bytes, 0xEE, sizeof bytes);
            memcpy(begin, numbers[i].bytes, 4);
            right = right && reader(bytes, tag) == numbers[i].value;
        }
        check(right, "values of a tag");
    }
    check(begin == bytes + end, "where the values end");
    for (size_t i = 0; i < sizeof beyond / sizeof beyond[0]; i++) check(reader(bytes, beyond[i]) == 0, "a tag above 63");
}

/* A reader of a number of four bytes that begins there, between other bytes. */
static void run_image_number(uint32_t (*reader)(const uint8_t *), size_t begin) {
    uint8_t bytes[BIVAMOLUNE_IMAGE_SIZE];
    for (size_t i = 0; i < NUMBERS; i++) {
        memset(bytes, 0xEE, sizeof bytes);
        memcpy(bytes + begin, numbers[i].bytes, 4);
        check(reader(bytes) == numbers[i].word, "a number of what was purged");
    }
}

/* Where each of 32 floors begins. */
static const size_t floor_begins[32] = {544, 556, 568, 580, 592, 604, 616, 628, 640, 652, 664, 676, 688, 700, 712, 724,
                                        736, 748, 760, 772, 784, 796, 808, 820, 832, 844, 856, 868, 880, 892, 904, 916};

/* Whether an image of so many floors has these and no other. One that claims more than 32 has 32. */
static int has_floors(uint8_t high, uint8_t low, uint32_t count) {
    static const uint32_t beyond[] = {32, 33, 255, 256, 1320, 65535, 65536, 357913941, 357913942, 2147483648u, 4294967295u};
    uint8_t bytes[BIVAMOLUNE_IMAGE_SIZE];
    int right = 1;
    memset(bytes, 0xEE, sizeof bytes);
    bytes[10] = high;
    bytes[11] = low;
    for (uint32_t i = 0; i < 32; i++)
        right = right && bivamolune_floor(bytes, i) == (i < count ? bytes + floor_begins[i] : NULL);
    for (size_t i = 0; i < sizeof beyond / sizeof beyond[0]; i++) right = right && bivamolune_floor(bytes, beyond[i]) == NULL;
    return right;
}

static void run_floors(void) {
    for (uint8_t count = 0; count <= 32; count++) check(has_floors(0, count, count), "so many floors");
    check(has_floors(0, 33, 32) && has_floors(0, 255, 32) && has_floors(1, 0, 32) && has_floors(1, 1, 32)
        && has_floors(0x80, 0, 32) && has_floors(0xFF, 0xFF, 32), "no 33rd floor");
}

/* Two floors, byte by byte: a line and a number, of which all bytes differ, and the last floor of all. */
static void run_floor_bytes(void) {
    static const uint8_t first[12] = {0xE9, 0x64, 0x14, 0x19, 0xD1, 0x8C, 0x02, 0xB9, 0x49, 0x5F, 0x12, 0x34};
    static const uint8_t last[12] = {0xFF, 0xFE, 0xFD, 0xFC, 0xFB, 0xFA, 0xF9, 0xF8, 0xF7, 0xF6, 0xFF, 0xFF};
    uint8_t bytes[BIVAMOLUNE_IMAGE_SIZE];
    memset(bytes, 0xEE, sizeof bytes);
    bytes[10] = 0;
    bytes[11] = 32;
    memcpy(bytes + 544, first, 12);
    memcpy(bytes + 916, last, 12);
    check(memcmp(bivamolune_floor(bytes, 0), first, 12) == 0 && memcmp(bivamolune_floor(bytes, 31), last, 12) == 0,
        "the bytes of a floor");
    check(bivamolune_two_bytes_at(bivamolune_floor(bytes, 0), BIVAMOLUNE_LINE_SIZE) == 4660
        && bivamolune_two_bytes_at(bivamolune_floor(bytes, 31), BIVAMOLUNE_LINE_SIZE) == 65535, "the number of a floor");
}

int main(void) {
    run_code_names();
    run_answers();
    run_values();
    run_parts();
    run_two_bytes();
    run_four_bytes();
    run_whole_step();
    run_kinds_and_counts();
    run_pairs();
    run_image_counts();
    run_image_values(bivamolune_value, 32, 288);
    run_image_values(bivamolune_base_value, 288, 544);
    run_image_number(bivamolune_purged_block, 16);
    run_image_number(bivamolune_purged_group, 20);
    run_floors();
    run_floor_bytes();
    return report();
}
