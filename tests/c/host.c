/* A host in C, which C++ reads as well: begins a station, delivers the paper's examples, and to images with floors, purges, reads
 * and writes sequences as text, and checks answers, images, steps and what the header gives beside the calls. */
#include "purge.h"

static void run_examples(void) {
    struct delta a1 = delta(10, 1, 1, 3, 1500), b1 = delta(11, 1, 2, 3, -20), a2 = delta(10, 2, 1, 3, 7);

    begin();
    check(counts(0, 0, 544), "no deltas");

    check(answers(deliver(a1), 0, 0, 1, "xA1 3=1500") && setpoint(3) == 1500, "A1");
    check(answers(deliver(a1), 0, 0, 0, ""), "A1 again");

    begin();
    check(answers(deliver(a2), 0, 0, 0, "") && counts(0, 1, 592), "A2 is held");
    check(answers(deliver(a1), 0, 0, 2, "xA1 3=1500,xA2 3=7") && counts(2, 0, 640), "then A1");

    begin();
    check(answers(deliver(b1), 0, 0, 1, "xB1 3=-20"), "B1");
    check(answers(deliver(a1), 0, 1, 2, "uB1 3=0,xA1 3=1500,xB1 3=1480") && setpoint(3) == 1480, "then A1 undoes B1");

    begin();
    deliver(prioritised(b1, 1, 5));
    deliver(prioritised(delta(12, 1, 2, 4, 20), 1, 7));
    check(answers(deliver(a1), 0, 2, 3, "uB1 3=0,uC1 4=0,xA1 3=1500,xC1 4=20,xB1 3=1480"), "priorities");
    check(answers(deliver(delta(12, 2, 2, 4, 1)), 0, 0, 1, "xC2 4=21") && counts(4, 0, 736), "with plain C2");

    begin();
    deliver(naming(a1, 11, 1));
    check(answers(deliver(naming(b1, 10, 1)), 0, 0, 0, "") && counts(0, 2, 664), "a ring");
}

static void run_refusals(void) {
    struct delta a1 = delta(10, 1, 1, 3, 1500), other = delta(10, 1, 1, 3, 2), zero = delta(10, 0, 1, 3, 1);
    struct delta wrong_tag = delta(10, 1, 1, 64, 1), own = naming(delta(10, 2, 1, 3, 1), 10, 1);
    uint8_t before[BIVAMOLUNE_IMAGE_SIZE];

    begin();
    deliver(a1);
    memcpy(before, image, sizeof image);
    check(bivamolune_empty(image, sizeof image - 1) == 1, "an image of 16,383 to empty");
    check(bivamolune_deliver(image, sizeof image - 1, a1.bytes, a1.size, steps, sizeof steps) == 1, "an image of 16,383");
    check(bivamolune_deliver(image, sizeof image, a1.bytes, a1.size, steps, sizeof steps - 1) == 1, "10,159 bytes for steps");
    check(bivamolune_deliver(image, sizeof image, a1.bytes, a1.size - 1, steps, sizeof steps) == 3, "a message of 47");
    check(bivamolune_deliver(image, sizeof image, NULL, 0, steps, sizeof steps) == 3, "no message");
    check(bivamolune_deliver(NULL, 0, a1.bytes, a1.size, steps, sizeof steps) == 1, "no image");
    check(bivamolune_deliver(image, sizeof image, a1.bytes, a1.size, NULL, 0) == 1, "no step buffer");
    check(bivamolune_deliver(NULL, 0, NULL, 0, NULL, 0) == 1, "nothing at all");
    check(bivamolune_empty(NULL, 0) == 1, "no image to empty");
    check(answers(deliver(zero), 4, 0, 0, ""), "A0");
    check(answers(deliver(own), 5, 0, 0, ""), "A2 naming A1");
    check(answers(deliver(wrong_tag), 6, 0, 0, ""), "tag 64");
    check(answers(deliver(other), 7, 0, 0, ""), "A1 with another value");
    check(memcmp(before, image, sizeof image) == 0, "a refusal writes nothing");

    for (uint8_t line = 11; line < 74; line++) deliver(delta(line, 1, 1, 3, line));
    check(counts(64, 0, 544 + 64 * 48), "64 deltas");
    check(answers(deliver(delta(74, 1, 1, 3, 1)), 8, 0, 0, ""), "a 65th");

    image[1] = 65;
    check(answers(deliver(a1), 2, 0, 0, ""), "a damaged count");
}

/* ---- floors */
static void run_floor_readers(void) {
    lay_floors();
    check(judge(image) == 0 && counts(1, 0, 616), "an image with floors");
    check(bivamolune_floor_count(image) == 2 && bivamolune_purged_block(image) == 4 && bivamolune_purged_group(image) == 9,
        "what was purged");
    check(bivamolune_floor(image, 0) == image + 544 && bivamolune_floor(image, 1) == image + 556
        && bivamolune_floor(image, 2) == NULL, "two floors");
    check(setpoint(3) == 720 && bivamolune_base_value(image, 3) == 700 && bivamolune_base_value(image, 63) == -20
        && bivamolune_base_value(image, 0) == 0, "base values");
    lay_emptied();
    check(judge(image) == 0 && counts(0, 0, 568) && setpoint(3) == 700, "an image that purging emptied");
    begin();
    check(bivamolune_floor_count(image) == 0 && bivamolune_floor(image, 0) == NULL && bivamolune_base_value(image, 3) == 0
        && bivamolune_purged_block(image) == 0 && bivamolune_purged_group(image) == 0, "nothing was purged");
}

/* Whether a delivery answers 0 with no step, and image and step buffer are as they were. */
static int leaves(struct delta d) {
    uint8_t before[BIVAMOLUNE_IMAGE_SIZE];
    memcpy(before, image, sizeof image);
    return deliver(d) == 0 && answers(0, 0, 0, 0, "") && memcmp(before, image, sizeof image) == 0;
}

/* Whether it leaves each of these: at and below both floors, with all kinds of bytes. */
static int leaves_purged(void) {
    struct delta eight = delta(10, 5, 1, 0, -1);
    for (uint8_t tag = 1; tag < 8; tag++) eight = commanding(eight, 3, tag, 1000);
    return leaves(delta(10, 5, 1, 3, 1)) && leaves(delta(10, 5, 2, 3, 1)) && leaves(eight) && leaves(delta(10, 1, 1, 63, 9))
        && leaves(prioritised(delta(10, 4, 1, 3, 1), BIVAMOLUNE_NUMBER_MOST, 0)) && leaves(naming(delta(10, 2, 1, 3, 1), 20, 7))
        && leaves(naming(delta(10, 5, 1, 3, 1), 10, 6)) && leaves(delta(12, 0xFFFF, 1, 3, 1)) && leaves(delta(12, 1, 1, 3, 1));
}

static void run_purged(void) {
    struct delta a5 = delta(10, 5, 1, 3, 1), a6 = delta(10, 6, 2, 3, 20);

    lay_floors();
    check(leaves_purged(), "at and below a floor");
    check(leaves(a6), "above it, A6 again");
    check(answers(deliver(delta(10, 6, 2, 3, 21)), 7, 0, 0, ""), "above it, A6 with another value");
    check(answers(deliver(delta(10, 0, 1, 3, 1)), 4, 0, 0, "") && answers(deliver(naming(a5, 10, 4)), 5, 0, 0, "")
        && answers(deliver(delta(10, 5, 1, 64, 1)), 6, 0, 0, ""), "codes 4 to 6 are looked for below a floor");
    check(bivamolune_deliver(image, sizeof image, a5.bytes, 47, steps, sizeof steps) == 3
        && bivamolune_deliver(image, sizeof image, a5.bytes, 48, steps, sizeof steps - 1) == 1, "as are 1 and 3");
    for (uint8_t line = 20; line < 83; line++) deliver(delta(line, 1, 1, 3, line));
    check(counts(64, 0, 568 + 64 * 48), "64 deltas above floors");
    check(leaves_purged(), "64 are there, at and below a floor");
    check(answers(deliver(delta(10, 7, 1, 3, 1)), 8, 0, 0, ""), "64 are there, above it");
    image[31] = 1;
    check(answers(deliver(a5), 2, 0, 0, ""), "as is 2");
}

/* Needs that were purged, the purged block, and base values. */
static void run_above_floors(void) {
    struct delta d1 = delta(13, 1, 1, 3, 5);

    lay_floors();
    check(answers(deliver(delta(10, 7, 2, 3, 1)), 0, 0, 1, "xA7 3=721") && counts(2, 0, 664), "the next of a line past its floor");
    check(answers(deliver(naming(delta(11, 1, 2, 63, 1), 10, 5)), 0, 0, 1, "xB1 63=-19"), "a need at its floor");
    check(answers(deliver(naming(delta(13, 1, 2, 63, 1), 10, 1)), 0, 0, 1, "xD1 63=-18"), "a need below its floor");
    check(answers(deliver(naming(delta(14, 1, 2, 63, 1), 12, 0xFFFF)), 0, 0, 1, "xE1 63=-17"), "a need at the last number");
    check(answers(deliver(naming(delta(15, 1, 2, 63, 1), 10, 8)), 0, 0, 0, "") && counts(5, 1, 904), "a need above its floor");
    check(bivamolune_floor_count(image) == 2 && bivamolune_base_value(image, 3) == 700 && bivamolune_base_value(image, 63) == -20
        && bivamolune_purged_block(image) == 4 && bivamolune_purged_group(image) == 9, "a delivery keeps what was purged");

    lay_floors();
    check(answers(deliver(prioritised(d1, 2, 0)), 0, 1, 2, "uA6 3=700,xD1 3=5,xA6 3=25"), "no block below the purged one");
    lay_floors();
    check(answers(deliver(prioritised(d1, 5, 0)), 0, 0, 1, "xD1 3=5"), "a block above the purged one");
    lay_emptied();
    check(answers(deliver(delta(13, 2, 2, 3, 1)), 0, 0, 0, "") && counts(0, 1, 616) && setpoint(3) == 700, "held, the log emptied");
    check(answers(deliver(delta(13, 1, 2, 3, 1)), 0, 0, 2, "xD1 3=701,xD2 3=702"), "run from the base values");
}

/* A byte of the image with floors that is another one: the code that judges the image. */
static const struct {
    size_t at;
    uint8_t byte;
    uint32_t code;
    const char *what;
} floor_bytes[] = {
    {5, 16, 2, "values at another place"},
    {7, 32, 2, "messages where the floors begin"},
    {9, 103, 2, "a byte less in use"},
    {11, 1, 2, "a floor less"},
    {11, 3, 2, "a floor more"},
    {10, 1, 2, "256 floors more"},
    {13, 33, 2, "floors at another place"},
    {15, 33, 2, "base values at another place"},
    {16, 0x7F, 0, "a great purged block"},
    {16, 0x80, 2, "a purged block past its limit"},
    {19, 0, 0, "a purged block of 0"},
    {20, 0x7F, 0, "a great purged group"},
    {20, 0x80, 2, "a purged group past its limit"},
    {23, 0, 0, "a purged group of 0"},
    {24, 1, 2, "a byte behind the purged group"},
    {31, 1, 2, "the last byte of the header"},
    {303, 189, 2, "a base value that does not lead to the value"},
    {555, 4, 2, "a floor below the need of a log delta"},
    {555, 6, 2, "a message at its floor"},
    {555, 7, 2, "a message below its floor"},
    {554, 1, 2, "a message far below its floor"},
    {555, 0, 2, "a floor of number 0000"},
    {561, 10, 2, "two floors of a line"},
    {561, 9, 2, "floors that descend"},
    {561, 11, 0, "another line's floor"},
    {566, 0, 0, "a floor of number 00FF"},
    {616, 1, 2, "a byte behind the last message"},
};

static void run_floor_bytes(void) {
    for (size_t i = 0; i < sizeof floor_bytes / sizeof floor_bytes[0]; i++) {
        lay_floors();
        image[floor_bytes[i].at] = floor_bytes[i].byte;
        check(judge(image) == floor_bytes[i].code, floor_bytes[i].what);
    }
}

/* The code that judges an image with no delta, with floors of so many lines and tag 0 at a base value. */
static uint32_t judge_base(uint8_t floors, int32_t value) {
    begin();
    for (uint8_t i = 0; i < floors; i++) put_sequence(image + 544 + 12 * (size_t)i, i, 1);
    image[11] = floors;
    put(image + 6, 544u + 12u * floors, 2);
    put(image + 8, 544u + 12u * floors, 2);
    put(image + 32, (uint32_t)value, 4);
    put(image + 288, (uint32_t)value, 4);
    return judge(image);
}

static void run_floor_limits(void) {
    check(judge_base(1, 0) == 0 && judge_base(31, 0) == 0 && judge_base(32, 0) == 0, "up to 32 floors");
    check(judge_base(33, 0) == 2 && judge_base(255, 0) == 2, "33 floors");
    check(judge_base(1, 1000000) == 0 && judge_base(32, -1000000) == 0, "the ends of base values");
    check(judge_base(1, 1000001) == 2 && judge_base(1, -1000001) == 2, "base values past their ends");
    check(judge_base(0, 0) == 0 && judge_base(0, 1) == 2 && judge_base(0, -1) == 2, "a base value and no floor");
    begin();
    image[19] = 1;
    check(judge(image) == 2, "a purged block and no floor");
    begin();
    image[23] = 1;
    check(judge(image) == 2, "a purged group and no floor");
}

/* ---- the purge; purging.c has more of it */

/* B1 and then A1, of which A1 is purged: the image byte by byte. */
static void lay_a1_purged(uint8_t *at) {
    static const uint8_t header[32] = {
        0, 1, 0, 0,          /* one in the log, none held */
        0, 32, 2, 44,        /* values at 32, messages at 556 */
        2, 92, 0, 1,         /* 604 bytes used, one floor */
        2, 32, 1, 32,        /* floors at 544, base values at 288 */
        0, 0, 0, 0,          /* the purged block */
        0, 0, 0, 1,          /* the purged group */
        0, 0, 0, 0, 0, 0, 0, 0,
    };
    static const uint8_t floor_and_b1[60] = {
        0, 0, 0, 0, 0, 10, 0, 0, 0, 1, 0, 1,     /* line A, 0001 */
        1, 0, 0, 1, 0, 48, 0, 40, 0, 40, 0, 0,   /* plain, one command */
        0, 0, 0, 0, 0, 11, 0, 0, 0, 1, 0, 1,     /* B1 */
        0, 0, 0, 1, 0, 0, 0, 0, 0, 0, 0, 0, 0, 0, 0, 0, /* group 1 */
        2, 3, 0, 0, 0xFF, 0xFF, 0xFF, 0xEC,      /* adds -20 to tag 3 */
    };
    static const uint8_t value[4] = {0, 0, 0x05, 0xC8}, base_value[4] = {0, 0, 0x05, 0xDC};
    memset(at, 0, BIVAMOLUNE_IMAGE_SIZE);
    memcpy(at, header, sizeof header);
    memcpy(at + 44, value, 4);
    memcpy(at + 300, base_value, 4);
    memcpy(at + 544, floor_and_b1, sizeof floor_and_b1);
}

/* The same with B1 purged too. */
static void lay_both_purged(uint8_t *at) {
    static const uint8_t value[4] = {0, 0, 0x05, 0xC8};
    lay_a1_purged(at);
    at[1] = 0;
    at[7] = at[9] = 56;
    at[8] = 2;
    at[11] = 2;
    memcpy(at + 300, value, 4);
    memset(at + 556, 0, 48);
    at[561] = 11, at[565] = 1, at[567] = 1;      /* line B, 0001 */
}

static void deliver_both(void) {
    begin();
    deliver(delta(11, 1, 2, 3, -20));
    check(answers(deliver(delta(10, 1, 1, 3, 1500)), 0, 1, 2, "uB1 3=0,xA1 3=1500,xB1 3=1480"), "B1, then A1");
}

static void run_purge_bytes(void) {
    deliver_both();
    lay_a1_purged(expected);
    check(purge(1) == 0 && memcmp(image, expected, sizeof image) == 0, "A1 is purged");
    check(bivamolune_log_count(image) == 1 && setpoint(3) == 1480 && bivamolune_base_value(image, 3) == 1500
        && bivamolune_purged_group(image) == 1 && bivamolune_purged_block(image) == 0, "what a purge leaves");
    check(bivamolune_floor_count(image) == 1 && bivamolune_floor(image, 0) == image + 544 && bivamolune_floor(image, 1) == NULL
        && bivamolune_two_bytes_at(bivamolune_floor(image, 0), BIVAMOLUNE_LINE_SIZE) == 1, "the floor that a purge makes");
    lay_both_purged(expected);
    check(purge(1) == 0 && memcmp(image, expected, sizeof image) == 0, "then B1");
    deliver_both();
    check(purge(2) == 0 && memcmp(image, expected, sizeof image) == 0, "both at once");
    lay_emptied();
    memcpy(expected, image, sizeof image);
    expected[555] = 6;
    expected[47] = expected[303] = 208;
    lay_floors();
    check(purge(1) == 0 && memcmp(image, expected, sizeof image) == 0, "its floor is raised, block and group are kept");
}

/* A purged delta that comes again, and what comes behind a purge. */
static void run_after_purge(void) {
    struct delta a1 = delta(10, 1, 1, 3, 1500), other = delta(10, 1, 2, 63, 7), b1 = delta(11, 1, 2, 3, -20);

    deliver_both();
    check(purge(1) == 0 && leaves(a1), "purged, A1 again");
    check(leaves(other) && leaves(prioritised(a1, 9, 9)) && leaves(naming(a1, 11, 1)), "purged, A1 with other bytes");
    check(answers(deliver(delta(10, 1, 1, 64, 1)), 6, 0, 0, ""), "purged, A1 with tag 64");
    check(leaves(b1) && answers(deliver(delta(11, 1, 2, 3, -21)), 7, 0, 0, ""), "B1 stands as it was");
    check(answers(deliver(delta(10, 2, 2, 3, 7)), 0, 1, 2, "uB1 3=1500,xA2 3=1507,xB1 3=1487"), "undone to the base value");
    check(answers(deliver(naming(delta(12, 1, 1, 3, 0), 10, 1)), 0, 0, 1, "xC1 3=0"), "C1 needs what was purged");
}

static void run_purge_refusals(void) {
    static uint8_t large[BIVAMOLUNE_IMAGE_SIZE + 1];
    uint8_t before[BIVAMOLUNE_IMAGE_SIZE];

    begin();
    check(purge_leaves(0, 0) && purge_leaves(1, 15) && purge_leaves(0xFFFFFFFFu, 15), "a purge of an empty log");
    deliver_both();
    check(purge_leaves(0, 0), "none are purged");
    check(purge_leaves(3, 15) && purge_leaves(258, 15) && purge_leaves(65538, 15) && purge_leaves(0xFFFFFFFFu, 15),
        "more than the log has");
    check(purge(1) == 0 && purge_leaves(0, 0) && purge_leaves(2, 15), "two of a log of one");
    memcpy(large, image, sizeof image);
    memcpy(before, image, sizeof image);
    check(bivamolune_purge(large, sizeof image - 1, 1) == 1 && bivamolune_purge(large, sizeof image + 1, 1) == 1
        && bivamolune_purge(large, 32, 0) == 1 && bivamolune_purge(large, 0, 0xFFFFFFFFu) == 1, "a purge of other sizes");
    check(memcmp(large, before, sizeof before) == 0 && large[sizeof image] == 0, "which write nothing");
    check(bivamolune_purge(NULL, 0, 0) == 1 && bivamolune_purge(NULL, 0, 1) == 1, "a purge of no image");
    image[303] ^= 1;
    check(purge_leaves(0, 2) && purge_leaves(1, 2) && purge_leaves(2, 2), "a purge with a damaged base value");
    image[303] ^= 1;
    image[1] = 2;
    check(purge_leaves(1, 2) && purge_leaves(0xFFFFFFFFu, 2), "a purge with a damaged count");
    memset(image, 0, sizeof image);
    check(purge_leaves(0, 2) && purge_leaves(1, 2), "a purge of zeros");
}

/* The steps of B1 and then A1, written out, and the bytes past them. */
static void run_step_bytes(void) {
    static const uint8_t three[240] = {
        /* undo B1: tag 3 is 0 */
        1, 0, 0, 1, 0, 0, 0, 0, 0, 11, 0, 0, 0, 1, 0, 1, 0, 0, 0, 3, 0, 0, 0, 0,
        0, 0, 0, 0, 0, 0, 0, 0, 0, 0, 0, 0, 0, 0, 0, 0, 0, 0, 0, 0, 0, 0, 0, 0, 0, 0, 0, 0, 0, 0, 0, 0,
        0, 0, 0, 0, 0, 0, 0, 0, 0, 0, 0, 0, 0, 0, 0, 0, 0, 0, 0, 0, 0, 0, 0, 0,
        /* execute A1: tag 3 is 1500 */
        2, 0, 0, 1, 0, 0, 0, 0, 0, 10, 0, 0, 0, 1, 0, 1, 0, 0, 0, 3, 0, 0, 0x05, 0xDC,
        0, 0, 0, 0, 0, 0, 0, 0, 0, 0, 0, 0, 0, 0, 0, 0, 0, 0, 0, 0, 0, 0, 0, 0, 0, 0, 0, 0, 0, 0, 0, 0,
        0, 0, 0, 0, 0, 0, 0, 0, 0, 0, 0, 0, 0, 0, 0, 0, 0, 0, 0, 0, 0, 0, 0, 0,
        /* execute B1: tag 3 is 1480 */
        2, 0, 0, 1, 0, 0, 0, 0, 0, 11, 0, 0, 0, 1, 0, 1, 0, 0, 0, 3, 0, 0, 0x05, 0xC8,
    };
    int kept = 1;

    begin();
    deliver(delta(11, 1, 2, 3, -20));
    check(steps[0] == 2 && steps[3] == 1 && steps[19] == 3 && steps[20] == 0xFF && steps[23] == 0xEC, "the value -20 in a step");
    check(deliver(delta(10, 1, 1, 3, 1500)) == 256 + 2 * 65536, "one undo, two executions");
    check(memcmp(steps, three, sizeof three) == 0, "three steps byte by byte");
    for (size_t i = sizeof three; i < sizeof steps; i++) kept = kept && steps[i] == 0xEE;
    check(kept, "the bytes past three steps");
}

/* Values that are stopped, a tag twice, and commands that change nothing. */
static void run_pairs(void) {
    struct delta stopped = commanding(commanding(delta(11, 1, 1, 5, 999990), 2, 5, 20), 2, 5, -20);
    struct delta still = commanding(commanding(delta(12, 1, 3, 5, 0), 2, 6, 0), 1, 5, 999980);
    struct delta eight = delta(13, 1, 1, 0, -1);

    begin();
    deliver(delta(10, 1, 1, 5, 77));
    check(answers(deliver(stopped), 0, 0, 1, "xB1 5=999990 5=1000000 5=999980"), "a stopped sum");
    check(answers(deliver(still), 0, 0, 1, "xC1 5=999980 6=0 5=999980"), "commands that change nothing");
    check(answers(deliver(delta(10, 2, 1, 6, 1)), 0, 2, 3, "uC1 5=999980 6=0 5=999980,uB1 5=1000000 5=999990 5=77,xA2 6=1,"
        "xB1 5=999990 5=1000000 5=999980,xC1 5=999980 6=1 5=999980"), "restored from the last command");
    for (uint8_t tag = 57; tag < 64; tag++) eight = commanding(eight, 2, tag, tag - 60);
    check(answers(deliver(eight), 0, 0, 1, "xD1 0=-1 57=-3 58=-2 59=-1 60=0 61=1 62=2 63=3"), "eight pairs");
}

/* ---- burner hardware: 64 setpoints that the host feeds by the header's readers of steps, and by nothing else */
static int32_t hardware[BIVAMOLUNE_TAGS];

static void feed(const uint8_t *step) {
    for (uint32_t pair = 0; pair < bivamolune_pair_count(step); pair++)
        hardware[bivamolune_pair_tag(step, pair)] = bivamolune_pair_value(step, pair);
}

/* Delivers and feeds; whether the hardware then shows what the image has. */
static int follows(struct delta d) {
    uint32_t answer = deliver(d), count = bivamolune_undos(answer) + bivamolune_executions(answer);
    int right = 1;
    for (uint32_t i = 0; i < count; i++) feed(steps + (size_t)i * BIVAMOLUNE_STEP_SIZE);
    for (uint32_t tag = 0; tag < BIVAMOLUNE_TAGS; tag++) right = right && hardware[tag] == setpoint(tag);
    return right;
}

static void run_hardware(void) {
    struct delta b1 = delta(11, 1, 2, 3, -20), many = delta(12, 1, 2, 3, -1000000);

    begin();
    memset(hardware, 0, sizeof hardware);
    check(follows(b1) && hardware[3] == -20, "hardware after B1");
    for (uint8_t tag = 0; tag < 7; tag++) many = commanding(many, (uint8_t)(tag % 3 + 1), tag, 1000 * tag - 2500);
    check(follows(many) && hardware[0] == -2500 && hardware[2] == 0 && hardware[3] == 500, "hardware after eight commands");
    check(follows(delta(10, 1, 1, 3, 1500)) && hardware[3] == 500, "hardware after A1, which undoes both");
    check(follows(b1) && follows(delta(10, 3, 1, 63, 9)) && hardware[63] == 0, "a repeat and a held delta leave it");
    check(follows(delta(10, 2, 3, 63, 8)) && hardware[63] == 9, "hardware after what was held");
    check(follows(delta(10, 0, 1, 3, 1)) && hardware[63] == 9, "a refusal leaves it");
}

/* The readers of a step, on one that is written out. Its count is larger than any, to see all of its three bytes. */
static void run_readers(void) {
    uint8_t step[BIVAMOLUNE_STEP_SIZE] = {2, 1, 2, 3, 0xA0, 0, 0, 0, 0, 0, 0, 0, 0, 0, 0, 0xA1};
    put(step + 16, 63, 4);
    put(step + 20, 0xFFFFFFECu, 4);
    put(step + 72, 0x01020304u, 4);
    put(step + 76, 1000000, 4);
    check(bivamolune_step_kind(step) == BIVAMOLUNE_EXECUTE, "the kind of a step");
    check(bivamolune_pair_count(step) == 0x010203, "the count of pairs");
    check(bivamolune_step_sequence(step)[0] == 0xA0 && bivamolune_step_sequence(step)[BIVAMOLUNE_SEQUENCE_SIZE - 1] == 0xA1,
        "the sequence of a step");
    check(bivamolune_pair_tag(step, 0) == 63 && bivamolune_pair_value(step, 0) == -20, "the first pair");
    check(bivamolune_pair_tag(step, 1) == 0 && bivamolune_pair_value(step, 1) == 0, "an unused pair");
    check(bivamolune_pair_tag(step, 7) == 0x01020304u && bivamolune_pair_value(step, 7) == 1000000, "the eighth pair");
    check(bivamolune_pair_tag(step, 8) == 0 && bivamolune_pair_value(step, 8) == 0
        && bivamolune_pair_tag(step, 0xFFFFFFFFu) == 0 && bivamolune_pair_value(step, 0xFFFFFFFFu) == 0, "no ninth pair");
}

/* ---- sequences as text */
static uint8_t sequences[BIVAMOLUNE_SEQUENCES_ROOM + 16], text[BIVAMOLUNE_TEXT_ROOM + 17];

/* Whether a buffer has some bytes at its front and is as it was behind them. */
static int holds(const uint8_t *buffer, size_t size, const void *bytes, size_t length) {
    int right = memcmp(buffer, bytes, length) == 0;
    for (size_t i = length; i < size; i++) right = right && buffer[i] == 0xEE;
    return right;
}

/* Reads a text with room for so many bytes: the code, and the sequences. The text is as it was. */
static int reads(const char *from, size_t room, uint32_t code, const uint8_t *expected, size_t length) {
    uint8_t copy[256];
    size_t size = strlen(from);
    uint32_t answer;
    memcpy(copy, from, size);
    memset(sequences, 0xEE, sizeof sequences);
    answer = bivamolune_read_sequences(copy, size, sequences, room);
    return bivamolune_code(answer) == code && bivamolune_written_length(answer) == length && memcmp(copy, from, size) == 0
        && holds(sequences, sizeof sequences, expected, length);
}

/* Writes sequences in the same way; the expected text ends in a NUL, the written one does not. */
static int writes(const uint8_t *from, size_t size, size_t room, uint32_t code, const char *expected) {
    uint8_t copy[256];
    uint32_t answer;
    memcpy(copy, from, size);
    memset(text, 0xEE, sizeof text);
    answer = bivamolune_write_sequences(copy, size, text, room);
    return bivamolune_code(answer) == code && bivamolune_written_length(answer) == strlen(expected)
        && memcmp(copy, from, size) == 0 && holds(text, sizeof text, expected, strlen(expected));
}

/* Nine sequences, and their text: the first eight end at 96 bytes and 199 characters. */
static const uint8_t nine[108] = {
    0x01, 0x23, 0x45, 0x67, 0x89, 0xAB, 0xCD, 0xEF, 0x00, 0x10, 0x00, 0x01,
    0xFF, 0xFF, 0xFF, 0xFF, 0xFF, 0xFF, 0xFF, 0xFF, 0xFF, 0xFF, 0xFF, 0xFF,
    0x00, 0x00, 0x00, 0x00, 0x00, 0x00, 0x00, 0x00, 0x00, 0x00, 0x01, 0x00,
    0x9A, 0xA9, 0x0F, 0xF0, 0x90, 0x09, 0xA0, 0x0A, 0x5A, 0xA5, 0x00, 0x10,
    0, 0, 0, 0, 0, 5, 0, 0, 0, 1, 0, 5,
    0, 0, 0, 0, 0, 6, 0, 0, 0, 1, 0, 6,
    0, 0, 0, 0, 0, 7, 0, 0, 0, 1, 0, 7,
    0, 0, 0, 0, 0, 8, 0, 0, 0, 1, 0, 8,
    0, 0, 0, 0, 0, 9, 0, 0, 0, 1, 0, 9,
};
static const char nine_text[] =
    "0123456789ABCDEF00100001,FFFFFFFFFFFFFFFFFFFFFFFF,000000000000000000000100,9AA90FF09009A00A5AA50010,"
    "000000000005000000010005,000000000006000000010006,000000000007000000010007,000000000008000000010008,"
    "000000000009000000010009";

/* The text of the first so many. */
static const char *front(size_t count) {
    static char part[sizeof nine_text];
    memcpy(part, nine_text, sizeof part);
    part[25 * count - 1] = 0;
    return part;
}

static void run_texts(void) {
    int read = 1, written = 1;
    check(reads("0102030405060708090A0B0C", 96, 0, (const uint8_t *)"\1\2\3\4\5\6\7\10\11\12\13\14", 12), "a text of one");
    for (size_t count = 1; count <= BIVAMOLUNE_SEQUENCES_MOST; count++) {
        read = read && reads(front(count), BIVAMOLUNE_SEQUENCES_ROOM, 0, nine, count * BIVAMOLUNE_SEQUENCE_SIZE);
        written = written && writes(nine, count * BIVAMOLUNE_SEQUENCE_SIZE, BIVAMOLUNE_TEXT_ROOM, 0, front(count));
    }
    check(read, "texts of one to eight");
    check(written, "one to eight as text, and no NUL behind it");
    check(reads(front(8), sizeof sequences, 0, nine, 96) && writes(nine, 96, sizeof text, 0, front(8)), "more room than needed");
    check(reads(nine_text, sizeof sequences, 13, nine, 0) && writes(nine, 108, sizeof text, 13, ""), "nine sequences");
}

static void run_text_refusals(void) {
    static const uint8_t zero[24] = {1, 2, 3, 4, 5, 6, 7, 8, 9, 10, 0, 0, 1, 2, 3, 4, 5, 6, 7, 8, 9, 10, 0, 1};
    check(reads("0102030405060708090a0B0C", 96, 13, nine, 0), "a small letter");
    check(reads("0102030405060708090A0B0G", 96, 13, nine, 0), "a G");
    check(reads("0102030405060708090A0B0", 96, 13, nine, 0), "23 characters");
    check(reads("0102030405060708090A0B0C,", 96, 13, nine, 0), "a comma behind the last");
    check(reads("0102030405060708090A0B0C;0102030405060708090A0B0C", 96, 13, nine, 0), "a semicolon");
    check(reads("", 96, 13, nine, 0) && bivamolune_read_sequences(NULL, 0, sequences, 96) == 13, "no text");
    check(reads("0102030405060708090A0000", 96, 14, nine, 0), "a number 0000");
    check(reads("0102030405060708090A0000,0102030405060708090a0001", 96, 13, nine, 0), "13 before 14");
    check(reads("0102030405060708090A0000", 95, 1, nine, 0) && reads("x", 95, 1, nine, 0), "95 bytes for sequences");
    check(bivamolune_read_sequences(NULL, 0, NULL, 0) == 1, "nothing to read and no room");
    check(writes(nine, 11, 199, 13, "") && writes(nine, 13, 199, 13, "") && writes(nine, 97, 199, 13, ""), "11, 13 and 97 bytes");
    check(writes(nine, 0, 199, 13, "") && bivamolune_write_sequences(NULL, 0, text, 199) == 13, "no sequences");
    check(writes(zero, 12, 199, 14, "") && writes(zero, 24, 199, 14, ""), "a number 0000 to write");
    check(writes(zero, 23, 199, 13, ""), "13 before 14 to write");
    check(writes(nine, 12, 198, 1, "") && writes(zero, 11, 198, 1, ""), "198 bytes for a text");
    check(bivamolune_write_sequences(NULL, 0, NULL, 0) == 1, "nothing to write and no room");
}

/* ---- what the header gives beside the calls */
static void run_header(void) {
    char version[32];
    uint32_t success = bivamolune_deliver(image, 0, NULL, 0, steps, 0);
    enum bivamolune_result full = BIVAMOLUNE_FULL;
    int differ = 1;

    snprintf(version, sizeof version, "%d.%d.%d", BIVAMOLUNE_VERSION_MAJOR, BIVAMOLUNE_VERSION_MINOR, BIVAMOLUNE_VERSION_PATCH);
    check(strcmp(version, BIVAMOLUNE_VERSION) == 0, "the version");
    check(!bivamolune_accepted(success), "a refusal is not accepted");
    check(strcmp(bivamolune_code_name((uint32_t)full), "full") == 0, "the name of a code");
    for (uint32_t code = 0; code <= BIVAMOLUNE_MANY_FLOORS + 1; code++)
        for (uint32_t other = 0; other < code; other++)
            differ = differ && strcmp(bivamolune_code_name(code), bivamolune_code_name(other)) != 0;
    check(differ, "the names differ");
    check(strcmp(bivamolune_code_name(17), bivamolune_code_name(0xFFFFFFFFu)) == 0, "no code");
    check(strcmp(bivamolune_code_name(13), "wrong form") == 0 && strcmp(bivamolune_code_name(14), "zero number") == 0,
        "the names of the codes of texts");
    check(BIVAMOLUNE_PAST_LOG == 15 && BIVAMOLUNE_MANY_FLOORS == 16 && strcmp(bivamolune_code_name(15), "past log") == 0
        && strcmp(bivamolune_code_name(16), "many floors") == 0, "the codes of the purge");
    check(BIVAMOLUNE_MESSAGE_LEAST == 40 + 8 && BIVAMOLUNE_STEP_ROOM == BIVAMOLUNE_STEPS_MOST * BIVAMOLUNE_STEP_SIZE
        && BIVAMOLUNE_MESSAGE_MOST == 40 + 12 * BIVAMOLUNE_DEPENDENCIES_MOST + 8 * BIVAMOLUNE_COMMANDS_MOST
        && BIVAMOLUNE_MESSAGE_ROOM == BIVAMOLUNE_MESSAGE_MOST, "limits");
    check(BIVAMOLUNE_HEADER_SIZE == 32 && BIVAMOLUNE_VALUES_AT == BIVAMOLUNE_HEADER_SIZE
        && BIVAMOLUNE_BASE_VALUES_AT == BIVAMOLUNE_VALUES_AT + 4 * BIVAMOLUNE_TAGS
        && BIVAMOLUNE_FLOORS_AT == BIVAMOLUNE_BASE_VALUES_AT + 4 * BIVAMOLUNE_TAGS && BIVAMOLUNE_FLOORS_AT == 544
        && BIVAMOLUNE_FLOOR_SIZE == BIVAMOLUNE_LINE_SIZE + 2 && BIVAMOLUNE_FLOORS_MOST == 32, "parts of an image");
    check(BIVAMOLUNE_STEP_ROOM == 10160 && BIVAMOLUNE_STEP_SIZE == 80 && BIVAMOLUNE_PAIRS_MOST == BIVAMOLUNE_COMMANDS_MOST
        && BIVAMOLUNE_STEP_SEQUENCE_AT + BIVAMOLUNE_SEQUENCE_SIZE == BIVAMOLUNE_STEP_PAIRS_AT
        && BIVAMOLUNE_STEP_PAIRS_AT + BIVAMOLUNE_PAIRS_MOST * BIVAMOLUNE_PAIR_SIZE == BIVAMOLUNE_STEP_SIZE, "parts of a step");
    check(BIVAMOLUNE_SEQUENCES_MOST == 8 && BIVAMOLUNE_SEQUENCE_TEXT_SIZE == 2 * BIVAMOLUNE_SEQUENCE_SIZE
        && BIVAMOLUNE_SEQUENCES_ROOM == BIVAMOLUNE_SEQUENCES_MOST * BIVAMOLUNE_SEQUENCE_SIZE
        && BIVAMOLUNE_TEXT_ROOM == BIVAMOLUNE_SEQUENCES_MOST * (BIVAMOLUNE_SEQUENCE_TEXT_SIZE + 1) - 1, "sizes of texts");

    begin();
    success = deliver(delta(10, 1, 1, 0, BIVAMOLUNE_VALUE_LEAST));
    check(success != 0 && bivamolune_accepted(success), "a success is not 0 as a whole");
    deliver(delta(11, 1, 1, 63, -1));
    deliver(delta(12, 1, 1, 62, BIVAMOLUNE_VALUE_MOST));
    check(setpoint(0) == BIVAMOLUNE_VALUE_LEAST && setpoint(1) == 0, "the least value");
    check(setpoint(62) == BIVAMOLUNE_VALUE_MOST && setpoint(63) == -1, "the greatest value, and -1");
    check(setpoint(64) == 0 && setpoint(0xFFFFFFFFu) == 0, "no such tag");
    put(image + BIVAMOLUNE_VALUES_AT, 0x80000000u, 4);
    check(setpoint(0) == INT32_MIN, "the least number of four bytes");
    put(image + BIVAMOLUNE_VALUES_AT, 0x7FFFFFFFu, 4);
    check(setpoint(0) == INT32_MAX, "the greatest number of four bytes");
}

/* Answers with a length, and those of 64 bits, written out. */
static void run_answers(void) {
    const uint64_t high = 4294967296u;
    check(bivamolune_composed_length(200 * 256) == 200 && bivamolune_accepted(200 * 256), "the length of a composed message");
    check(bivamolune_written_length(199 * 256) == 199 && bivamolune_accepted(199 * 256) && bivamolune_written_length(14) == 0
        && bivamolune_code(14) == BIVAMOLUNE_ZERO_NUMBER, "the length of a text");
    check(bivamolune_setpoint_value(1500 * high) == 1500 && bivamolune_setpoint_code(1500 * high) == 0, "the value 1500");
    check(bivamolune_setpoint_value(0xFFFFFFECu * high) == -20, "the value -20");
    check(bivamolune_setpoint_value(0x80000000u * high) == INT32_MIN
        && bivamolune_setpoint_value(0x7FFFFFFFu * high) == INT32_MAX, "the ends of four bytes");
    check(bivamolune_setpoint_code(12) == BIVAMOLUNE_NOT_THERE && bivamolune_setpoint_value(12) == 0, "no value");
    check(bivamolune_log_message_offset(592 * high + 200 * 256) == 592
        && bivamolune_log_message_length(592 * high + 200 * 256) == 200
        && bivamolune_log_message_code(592 * high + 200 * 256) == 0, "a part of 200 bytes at 592");
    check(bivamolune_log_message_code(2) == BIVAMOLUNE_NO_IMAGE && bivamolune_log_message_length(2) == 0
        && bivamolune_log_message_offset(2) == 0, "no part");
}

int main(void) {
    run_examples();
    run_refusals();
    run_floor_readers();
    run_purged();
    run_above_floors();
    run_floor_bytes();
    run_floor_limits();
    run_purge_bytes();
    run_after_purge();
    run_purge_refusals();
    run_step_bytes();
    run_pairs();
    run_hardware();
    run_readers();
    run_texts();
    run_text_refusals();
    run_header();
    run_answers();
    return report();
}
