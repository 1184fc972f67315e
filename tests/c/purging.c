/* Stations that purge, through C: every byte that a purge leaves, the most floors, logs that are full again and again, a host that
 * keeps the log by its steps, and what the header says of purging too early. What is expected is put together by hand. C++ reads
 * it as well. */
#include "purge.h"

static struct delta grouped(struct delta d, uint32_t group) {
    put(d.bytes + 24, group, 4);
    return d;
}

/* ---- every byte */

/* The log is A1, B1 of group 3, C1 and A2 of block 4; B1 and C1 name what is before them. D2 and E1 are held. */
static struct delta a1, b1, c1, a2, d2, e1;

static void begin_four(void) {
    a1 = delta(10, 1, 1, 3, 1500);
    b1 = grouped(naming(delta(11, 1, 2, 3, -20), 10, 1), 3);
    c1 = grouped(naming(delta(12, 1, 3, 7, 9), 11, 1), 2);
    a2 = prioritised(commanding(delta(10, 2, 2, 3, 999000), 1, 63, -5), 4, 0);
    d2 = delta(13, 2, 1, 3, 0);
    e1 = prioritised(naming(delta(14, 1, 1, 3, 1), 20, 7), 9, 9);
    begin();
    deliver(e1), deliver(a2), deliver(c1), deliver(d2), deliver(b1);
    check(answers(deliver(a1), 0, 0, 4, "xA1 3=1500,xB1 3=1480,xC1 7=9,xA2 3=1000000 63=-5"), "a log of four");
}

/* The last so many messages of that log, and the held ones. */
static void expect_rest(unsigned count) {
    const struct delta log[4] = {a1, b1, c1, a2};
    for (unsigned i = 4 - count; i < 4; i++) expect_message(log[i]);
    expect_held(d2);
    expect_held(e1);
}

/* What a purge of so many of them leaves. */
static void expect_four(unsigned k) {
    static const uint32_t blocks[5] = {0, 0, 0, 0, 4}, groups[5] = {0, 1, 3, 3, 3};
    static const int32_t tag_3[5] = {0, 1500, 1480, 1480, 1000000}, tag_7[5] = {0, 0, 0, 9, 9};
    expect(4 - k, blocks[k], groups[k]);
    if (k >= 1) expect_floor(10, k == 4 ? 2 : 1);
    if (k >= 2) expect_floor(11, 1);
    if (k >= 3) expect_floor(12, 1);
    expect_value(3, tag_3[k], 1000000);
    expect_value(7, tag_7[k], 9);
    expect_value(63, k == 4 ? -5 : 0, -5);
    expect_rest(4 - k);
}

static void run_bytes(void) {
    for (unsigned k = 0; k <= 4; k++) {
        begin_four();
        expect_four(k);
        check(purge(k) == 0 && is_expected(), "the first of four at once");
    }
    begin_four();
    for (unsigned k = 1; k <= 4; k++) {
        expect_four(k);
        check(purge(1) == 0 && is_expected(), "the first of four one by one");
    }
    check(purge_leaves(0, 0) && purge_leaves(1, 15), "held ones are no log");
}

/* What was held is executed above floors, when what it waits for comes. */
static void run_held(void) {
    begin_four();
    check(purge(2) == 0 && answers(deliver(delta(13, 1, 2, 3, 1)), 0, 2, 4, "uA2 63=0 3=1480,uC1 7=0,xD1 3=1481,xD2 3=0,xC1 7=9,"
        "xA2 3=999000 63=-5"), "D1 and D2, between what was purged and the rest");
    begin_four();
    check(purge(4) == 0 && answers(deliver(delta(13, 1, 2, 3, 1)), 0, 0, 2, "xD1 3=1000000,xD2 3=0"), "the log emptied");
    check(answers(deliver(delta(20, 7, 1, 3, 8)), 0, 0, 0, "") && bivamolune_held_count(image) == 2, "E1 waits with its need");
    check(purge(2) == 0 && bivamolune_log_count(image) == 0 && bivamolune_held_count(image) == 2, "held ones stay behind");
}

/* Log messages stand behind the floors, and those that were purged are gone. */
static void run_places(void) {
    uint64_t part;
    begin_four();
    part = bivamolune_log_message(image, sizeof image, 0);
    check(bivamolune_log_message_offset(part) == 544 && bivamolune_log_message_length(part) == 48, "A1 is read before the purge");
    check(purge(1) == 0, "then purged");
    part = bivamolune_log_message(image, sizeof image, 0);
    check(bivamolune_log_message_code(part) == 0 && bivamolune_log_message_offset(part) == 556
        && bivamolune_log_message_length(part) == 60 && memcmp(image + 556, b1.bytes, 60) == 0, "B1 is the first");
    check(bivamolune_log_message(image, sizeof image, 3) == BIVAMOLUNE_NOT_THERE, "the log has no fourth");
    check(purge(3) == 0 && bivamolune_log_message(image, sizeof image, 0) == BIVAMOLUNE_NOT_THERE, "nor a first, all purged");
    check(bivamolune_setpoint_value(bivamolune_setpoint(image, sizeof image, 3)) == 1000000, "the value is there");
}

/* A chain: one floor that rises. In two parts or in one, the image is the same. */
static void run_chain(void) {
    for (uint16_t cut = 0; cut <= 20; cut++) {
        begin();
        for (uint16_t number = 1; number <= 20; number++) deliver(delta(10, number, 2, 0, number));
        check(purge(cut) == 0 && bivamolune_floor_count(image) == (cut > 0) && purge(20u - cut) == 0, "a chain in two parts");
        expect(0, 0, 1);
        expect_floor(10, 20);
        expect_value(0, 210, 210);
        check(is_expected(), "a chain is purged");
    }
}

/* The purged block holds for what comes later. The log is F1 of block 2, then D1 and E1 of block 4. */
static void run_block(void) {
    begin();
    deliver(prioritised(delta(13, 1, 1, 3, 1), 4, 5));
    deliver(prioritised(delta(14, 1, 2, 3, 10), 4, 5));
    deliver(prioritised(delta(15, 1, 2, 3, 100), 2, 5));
    check(purge(2) == 0 && bivamolune_purged_block(image) == 4 && bivamolune_base_value(image, 3) == 1, "F1 and D1 are purged");
    check(answers(deliver(delta(10, 1, 2, 3, 1000)), 0, 0, 1, "xA1 3=1011"), "none is before one with priority in block 4");
    check(answers(deliver(prioritised(delta(11, 1, 2, 3, 5), 3, 6)), 0, 2, 3, "uA1 3=11,uE1 3=1,xB1 3=6,xE1 3=16,xA1 3=1016"),
        "a block below the purged one counts as that one");
    check(purge(1) == 0 && bivamolune_purged_block(image) == 4 && bivamolune_base_value(image, 3) == 6, "and raises nothing");
}

/* ---- the most floors */

/* One delta of each of 33 lines, and the last line's second. */
static void begin_lines(void) {
    begin();
    for (uint8_t line = 1; line <= 33; line++) deliver(delta(line, 1, 2, line, line));
    deliver(delta(33, 2, 2, 0, 1));
    check(counts(34, 0, 544 + 34 * 48), "33 lines");
}

/* The first of so many lines are purged, and the rest is there. */
static int are_lines_purged(uint8_t count) {
    expect(34u - count, 0, count > 0);
    for (uint8_t line = 1; line <= count; line++) expect_floor(line, 1);
    for (uint8_t line = 1; line <= 33; line++) expect_value(line, line <= count ? line : 0, line);
    expect_value(0, 0, 1);
    for (uint8_t line = (uint8_t)(count + 1); line <= 33; line++) expect_message(delta(line, 1, 2, line, line));
    expect_message(delta(33, 2, 2, 0, 1));
    return is_expected();
}

static void run_most_floors(void) {
    begin_lines();
    check(purge_leaves(33, 16) && purge_leaves(34, 16), "33 floors");
    check(purge_leaves(35, 15) && purge_leaves(0xFFFFFFFFu, 15), "15 before 16");
    check(are_lines_purged(0), "a refusal leaves all lines");
    check(purge(32) == 0 && are_lines_purged(32), "after 16 a host purges fewer");
    check(purge_leaves(1, 16) && purge_leaves(2, 16) && purge_leaves(3, 15) && purge_leaves(0, 0), "a 33rd line above 32 floors");
    check(answers(deliver(delta(32, 2, 1, 1, 5)), 0, 2, 3, "uX2 0=0,uX1 33=0,xW2 1=5,xX1 33=33,xX2 0=1"), "a line with a floor");
    check(purge_leaves(2, 16) && purge(1) == 0 && bivamolune_floor_count(image) == 32
        && bivamolune_two_bytes_at(bivamolune_floor(image, 31), BIVAMOLUNE_LINE_SIZE) == 2, "whose floor is raised");
    begin_lines();
    for (uint8_t count = 1; count <= 32; count++) check(purge(1) == 0 && are_lines_purged(count), "line by line");
    check(purge_leaves(1, 16), "and no further");
}

/* ---- full again and again */

/* 64 deltas of two lines, each of eight commands that add 1 to tags 0 to 7; whether each is executed and undoes nothing. */
static int fills(uint16_t first) {
    int right = 1;
    for (uint8_t line = 10; line <= 11; line++)
        for (uint16_t number = first; number < first + 32; number++) {
            struct delta d = delta(line, number, 2, 0, 1);
            uint32_t answer;
            for (uint8_t tag = 1; tag < 8; tag++) d = commanding(d, 2, tag, 1);
            answer = deliver(d);
            right = right && bivamolune_accepted(answer) && bivamolune_undos(answer) == 0 && bivamolune_executions(answer) == 1;
        }
    return right;
}

/* Everything of some rounds is purged. */
static int is_emptied(uint16_t rounds) {
    expect(0, 0, 1);
    expect_floor(10, (uint16_t)(32 * rounds));
    expect_floor(11, (uint16_t)(32 * rounds));
    for (uint8_t tag = 0; tag < 8; tag++) expect_value(tag, 64 * rounds, 64 * rounds);
    return is_expected();
}

static void run_full(void) {
    const struct delta one_more = delta(12, 1, 1, 3, 1);
    begin();
    for (uint16_t round = 0; round < 10; round++) {
        uint32_t floors = round == 0 ? 0 : 2;
        check(fills((uint16_t)(32 * round + 1)) && counts(64, 0, 544 + 12 * floors + 64 * 104), "64 deltas");
        check(answers(deliver(one_more), 8, 0, 0, ""), "a 65th");
        check(purge_leaves(65, 15) && purge(64) == 0 && is_emptied((uint16_t)(round + 1)), "all 64 are purged");
    }
    check(answers(deliver(one_more), 0, 0, 1, "xC1 3=1"), "the 65th finds room");
}

/* A line goes on to its last number. The floor below it is laid down by hand, as no host may do. */
static void run_last_number(void) {
    begin();
    deliver(delta(10, 1, 1, 3, 1));
    check(purge(1) == 0, "A1 for its floor");
    put(image + 554, 0xFFFE, 2);
    check(deliver(delta(10, 0xFFFF, 1, 3, 2)) == 65536 && counts(1, 0, 604), "the last number");
    expect(0, 0, 1);
    expect_floor(10, 0xFFFF);
    expect_value(3, 2, 2);
    check(purge(1) == 0 && is_expected(), "is purged");
}

/* ---- a host that keeps the log by the steps, and hardware that plays them */
static uint8_t played[BIVAMOLUNE_DELTAS_MOST][BIVAMOLUNE_SEQUENCE_SIZE];
static size_t played_count;
static int32_t hardware[BIVAMOLUNE_TAGS];

/* An undo takes the last off, which it must name; an execution adds at the end. */
static int play(const uint8_t *step) {
    for (uint32_t pair = 0; pair < bivamolune_pair_count(step); pair++)
        hardware[bivamolune_pair_tag(step, pair)] = bivamolune_pair_value(step, pair);
    if (bivamolune_step_kind(step) == BIVAMOLUNE_UNDO)
        return played_count > 0 && memcmp(played[--played_count], bivamolune_step_sequence(step), BIVAMOLUNE_SEQUENCE_SIZE) == 0;
    if (played_count == BIVAMOLUNE_DELTAS_MOST) return 0;
    memcpy(played[played_count++], bivamolune_step_sequence(step), BIVAMOLUNE_SEQUENCE_SIZE);
    return 1;
}

/* Whether the image has that log, and the values that the hardware shows. */
static int is_played(void) {
    int right = bivamolune_log_count(image) == played_count;
    for (uint32_t place = 0; right && place < played_count; place++) {
        uint64_t part = bivamolune_log_message(image, sizeof image, place);
        right = bivamolune_log_message_code(part) == 0
            && memcmp(image + bivamolune_log_message_offset(part) + 12, played[place], BIVAMOLUNE_SEQUENCE_SIZE) == 0;
    }
    for (uint32_t tag = 0; tag < BIVAMOLUNE_TAGS; tag++) right = right && hardware[tag] == setpoint(tag);
    return right;
}

static int plays(struct delta d) {
    uint32_t answer = deliver(d), count = bivamolune_undos(answer) + bivamolune_executions(answer);
    int right = bivamolune_accepted(answer);
    for (uint32_t i = 0; i < count; i++) right = play(steps + (size_t)i * BIVAMOLUNE_STEP_SIZE) && right;
    return right && is_played();
}

/* A purge takes the first off the played log, as many as it is told if the log has them, and the hardware gets nothing. */
static int purges_played(uint32_t k) {
    if (k > played_count) return purge_leaves(k, BIVAMOLUNE_PAST_LOG) && is_played();
    played_count -= k;
    memmove(played[0], played[k], played_count * BIVAMOLUNE_SEQUENCE_SIZE);
    return purge(k) == BIVAMOLUNE_ACCEPTED && is_played();
}

/* A delta that follows from its line and number: each operation, all tags, some blocks, groups that rise. */
static struct delta any(uint8_t line, uint16_t number) {
    struct delta d = delta(line, number, (uint8_t)((number + line) % 3 + 1), (uint8_t)((7 * line + number) % 64),
                           37 * number - 500 * line);
    d = grouped(commanding(d, 2, (uint8_t)(number % 64), line), 1u + number / 4u);
    return number % 5 == 0 ? prioritised(d, 1u + number / 10u, line) : d;
}

/* Eight lines, each of which goes on or runs ahead by one, and purges of up to one more than the log has. */
static void run_played(void) {
    uint16_t next[8] = {1, 1, 1, 1, 1, 1, 1, 1};
    uint32_t seed = 5;
    unsigned wrong = 0, purged = 0, late = 0;
    begin();
    played_count = 0;
    memset(hardware, 0, sizeof hardware);
    for (unsigned round = 0; round < 1000; round++) {
        uint8_t line = (uint8_t)(seed >> 8 & 7), ahead = (seed >> 12 & 3) == 0;
        seed = seed * 1664525u + 1013904223u;
        if (seed >> 16 & 7) {
            wrong += !plays(any((uint8_t)(10 + line), (uint16_t)(next[line] + ahead)));
            next[line] = (uint16_t)(next[line] + !ahead);
            late += bivamolune_step_kind(steps) == BIVAMOLUNE_UNDO;
        } else {
            purged += bivamolune_log_count(image);
            wrong += !purges_played((seed >> 20) % (uint32_t)(played_count + 2));
            purged -= bivamolune_log_count(image);
        }
    }
    check(wrong == 0, "the played log loses what is purged");
    check(purged > 400 && late > 100 && bivamolune_floor_count(image) == 8, "many are purged and many come late");
}

/* ---- what a host must know before it purges */
static uint8_t other[BIVAMOLUNE_IMAGE_SIZE];

/* The other station's turn: the two images change places. */
static void turn(void) {
    uint8_t kept[BIVAMOLUNE_IMAGE_SIZE];
    memcpy(kept, image, sizeof image);
    memcpy(image, other, sizeof image);
    memcpy(other, kept, sizeof image);
}

static void begin_both(struct delta d) {
    begin();
    deliver(d);
    memcpy(other, image, sizeof image);
}

/* A1 is on its way while B1 is purged at one of two stations. */
static void run_too_early(void) {
    const struct delta first = delta(10, 1, 1, 3, 1500), second = delta(11, 1, 2, 3, -20), third = delta(12, 1, 2, 3, 1);
    begin_both(second);
    check(purge(1) == 0 && answers(deliver(first), 0, 0, 1, "xA1 3=1500"), "purged too early, A1 runs behind B1");
    turn();
    check(answers(deliver(first), 0, 1, 2, "uB1 3=0,xA1 3=1500,xB1 3=1480"), "and before it where B1 was not purged");
    check(setpoint(3) == 1480 && bivamolune_value(other, 3) == 1500, "the two stations differ");

    begin_both(second);
    deliver(first);
    turn();
    deliver(first);
    check(purge(1) == 0 && answers(deliver(third), 0, 0, 1, "xC1 3=1481"), "purged when A1 had come");
    turn();
    check(answers(deliver(third), 0, 0, 1, "xC1 3=1481") && memcmp(image, other, sizeof image) != 0, "the logs go on alike");
    check(purge(1) == 0 && memcmp(image, other, sizeof image) == 0, "purged at both, the images are equal");
}

/* A1 finds no room. It comes again when ten were purged that it belongs before; another station had it in time. */
static void run_refused(void) {
    const struct delta late = delta(10, 1, 1, 3, 1500);
    begin_both(delta(11, 1, 2, 3, 1));
    for (uint16_t number = 2; number <= 64; number++) deliver(delta(11, number, 2, 3, 1));
    check(answers(deliver(late), 8, 0, 0, "") && purge(10) == 0 && deliver(late) == 54 * 256 + 55 * 65536, "A1 after a purge");
    check(setpoint(3) == 1554, "is executed behind what was purged");
    turn();
    deliver(late);
    for (uint16_t number = 2; number <= 63; number++) deliver(delta(11, number, 2, 3, 1));
    check(purge(10) == 0 && deliver(delta(11, 64, 2, 3, 1)) == 65536 && setpoint(3) == 1564, "in time it is before all");
}

/* A station that joins: from a copy of the image, and from no deltas. */
static void run_joining(void) {
    const struct delta next = delta(10, 2, 2, 3, 7), after = naming(delta(11, 1, 2, 3, -20), 10, 1);
    begin_both(delta(10, 1, 1, 3, 1500));
    check(purge(1) == 0 && answers(deliver(next), 0, 0, 1, "xA2 3=1507"), "a station that purged A1");
    memcpy(other, image, sizeof image);
    deliver(after);
    turn();
    check(answers(deliver(after), 0, 0, 1, "xB1 3=1487") && memcmp(image, other, sizeof image) == 0, "one that has its image");
    begin();
    check(answers(deliver(next), 0, 0, 0, "") && answers(deliver(after), 0, 0, 0, "") && counts(0, 2, 652),
        "one that began with no deltas holds what needs A1");
}

int main(void) {
    run_bytes();
    run_held();
    run_places();
    run_chain();
    run_block();
    run_most_floors();
    run_full();
    run_last_number();
    run_played();
    run_too_early();
    run_refused();
    run_joining();
    return report();
}
