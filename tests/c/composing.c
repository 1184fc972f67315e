/* Compose, setpoint and log message from C: the paper's examples, each code with its small input, logs that were purged, sizes,
 * and null with size 0. C++ reads it as well. */
#include "purge.h"

/* The arguments of a compose beside the image. The message buffer has more room than is needed. */
struct request {
    uint8_t line[12];
    size_t line_size;
    uint8_t commands[80];
    size_t commands_size;
    uint32_t flag, priority;
    size_t room;
};

static uint8_t message[BIVAMOLUNE_MESSAGE_ROOM + 16];
static uint8_t before[BIVAMOLUNE_IMAGE_SIZE];

/* The next delta of a line, with the command of a delta. */
static struct request request(uint8_t line, struct delta d) {
    struct request r;
    memset(&r, 0, sizeof r);
    put_sequence(r.line, line, 0);
    r.line_size = BIVAMOLUNE_LINE_SIZE;
    memcpy(r.commands, d.bytes + d.size - BIVAMOLUNE_COMMAND_SIZE, BIVAMOLUNE_COMMAND_SIZE);
    r.commands_size = BIVAMOLUNE_COMMAND_SIZE;
    r.room = BIVAMOLUNE_MESSAGE_ROOM;
    return r;
}

static uint32_t compose(struct request r) {
    memset(message, 0xEE, sizeof message);
    memcpy(before, image, sizeof image);
    return bivamolune_compose(image, sizeof image, r.line, r.line_size, r.commands, r.commands_size, r.flag, r.priority, message,
                              r.room);
}

/* The code and the message; the rest of the buffer and the image are as they were. */
static int composes(struct request r, uint32_t code, struct delta d) {
    uint32_t answer = compose(r);
    int right = bivamolune_code(answer) == code && bivamolune_composed_length(answer) == d.size
        && memcmp(message, d.bytes, d.size) == 0 && memcmp(before, image, sizeof image) == 0;
    for (size_t i = d.size; i < sizeof message; i++) right = right && message[i] == 0xEE;
    return right;
}

static int refuses(struct request r, uint32_t code) {
    struct delta nothing = {{0}, 0};
    return composes(r, code, nothing);
}

static struct delta grouped(struct delta d, uint32_t group) {
    put(d.bytes + 24, group, 4);
    return d;
}

static void run_composed(void) {
    struct delta a1 = delta(10, 1, 1, 3, 1500), b1 = delta(11, 1, 2, 3, -20);
    struct request urgent = request(10, a1);
    urgent.flag = 1;
    urgent.priority = 5;

    begin();
    check(composes(request(10, a1), 0, a1), "compose on an empty log");
    check(composes(urgent, 0, prioritised(a1, 1, 5)), "compose with priority");
    deliver(b1);
    check(composes(request(10, a1), 0, grouped(naming(a1, 11, 1), 2)), "compose on A, log B1");
    check(answers(deliver(grouped(naming(a1, 11, 1), 2)), 0, 0, 1, "xA1 3=1500"), "delivered, it is the first step");

    begin();
    deliver(a1);
    check(composes(request(11, b1), 0, naming(b1, 10, 1)), "compose on B, log A1");
    check(composes(request(10, b1), 0, delta(10, 2, 2, 3, -20)), "the predecessor is not named");

    begin();
    for (uint8_t line = 16; line < 24; line++) deliver(delta(line, 1, 1, 3, line));
    check(compose(request(10, a1)) == 256 * (40 + 8 * 12 + 8), "eight lone lines, a ninth composes");
    check(message[2] == 8 && message[45] == 16 && message[40 + 7 * 12 + 5] == 23, "eight dependencies");
}

static void run_compose_codes(void) {
    struct delta a1 = delta(10, 1, 1, 3, 1500);
    struct request right = request(10, a1), odd;

    begin();
    odd = right, odd.line_size = 9;
    check(refuses(odd, 1), "a line of nine bytes");
    odd = right, odd.line_size = 11;
    check(refuses(odd, 1), "a line of eleven bytes");
    odd = right, odd.room = 199;
    check(refuses(odd, 1), "199 bytes for the message");
    odd = right, odd.commands_size = 7;
    check(refuses(odd, 3), "seven bytes of commands");
    odd = right, odd.commands_size = 72;
    check(refuses(odd, 3), "nine commands");
    odd = right, odd.commands[1] = 64;
    check(refuses(odd, 6), "tag 64");
    odd = right, odd.flag = 2;
    check(refuses(odd, 6), "a flag of 2");
    odd = right, odd.priority = 1;
    check(refuses(odd, 6), "a priority without the flag");

    deliver(delta(10, 3, 1, 3, 1));
    check(refuses(right, 9), "A3 alone, compose on A");
    begin();
    deliver(prioritised(a1, BIVAMOLUNE_NUMBER_MOST, 0));
    odd = right, odd.flag = 1;
    check(refuses(odd, 10), "with priority, after block 2147483647");
    begin();
    for (uint8_t line = 16; line < 25; line++) deliver(delta(line, 1, 1, 3, line));
    check(refuses(right, 11), "nine lone lines, a tenth composes");
    image[1] = 1;
    check(refuses(right, 2), "a damaged count");
}

/* The same request with a priority of 5. */
static struct request urgently(struct request r) {
    r.flag = 1;
    r.priority = 5;
    return r;
}

/* On a log above floors: A6, with the purged group 9 and the purged block 4. */
static void run_past_floors(void) {
    struct delta b1 = delta(11, 1, 2, 3, -20);

    lay_floors();
    check(composes(request(10, b1), 0, grouped(delta(10, 7, 2, 3, -20), 9)), "the purged group counts");
    check(composes(request(11, b1), 0, grouped(naming(b1, 10, 6), 9)), "a dependency above floors");
    check(composes(request(9, b1), 0, grouped(naming(delta(9, 1, 2, 3, -20), 10, 6), 10)), "past the purged group");
    check(composes(urgently(request(11, b1)), 0, prioritised(grouped(naming(b1, 10, 6), 9), 5, 5)), "past the purged block");
    check(refuses(request(12, b1), 10), "a floor at the last number");
    check(answers(deliver(grouped(naming(b1, 10, 6), 9)), 0, 0, 1, "xB1 3=700"), "delivered above floors, it is the first step");
    check(composes(request(10, b1), 0, grouped(naming(delta(10, 7, 2, 3, -20), 11, 1), 10)), "a group of the log as high");
    deliver(delta(10, 9, 1, 3, 1));
    check(refuses(request(10, b1), 9), "A9 held above its floor");
    lay_floors();
    image[20] = 0x7F, image[21] = image[22] = image[23] = 0xFF;
    check(composes(request(10, b1), 0, grouped(delta(10, 7, 2, 3, -20), BIVAMOLUNE_NUMBER_MOST)), "the last group");
    check(refuses(request(9, b1), 10), "past the last group");
    lay_floors();
    image[16] = 0x7F, image[17] = image[18] = image[19] = 0xFF;
    check(composes(request(10, b1), 0, grouped(delta(10, 7, 2, 3, -20), 9)), "the last block");
    check(refuses(urgently(request(10, b1)), 10), "past the last block");
}

/* On a log that purging emptied. */
static void run_emptied(void) {
    struct delta b1 = delta(11, 1, 2, 3, -20);

    lay_emptied();
    check(composes(request(10, b1), 0, grouped(delta(10, 6, 2, 3, -20), 10)), "past the floor, on an emptied log");
    check(composes(request(9, b1), 0, grouped(delta(9, 1, 2, 3, -20), 10)), "a line without a floor, on an emptied log");
    check(composes(urgently(request(11, b1)), 0, prioritised(grouped(b1, 10), 5, 5)), "with priority, on an emptied log");
    check(refuses(request(12, b1), 10), "a floor at the last number, on an emptied log");
    deliver(delta(13, 2, 1, 3, 1));
    check(composes(request(10, b1), 0, grouped(delta(10, 6, 2, 3, -20), 10)), "an emptied log and a held delta");
    image[20] = 0x7F, image[21] = image[22] = image[23] = 0xFF;
    check(refuses(request(10, b1), 10), "past the last group, on an emptied log");
}

/* Whether what was composed and is expected is delivered with no undo, and executed first. */
static int goes_on(struct request r, struct delta d, const char *step) {
    return composes(r, 0, d) && answers(deliver(d), 0, 0, 1, step);
}

/* Compose, deliver, purge all, again and again: the number goes on, group and block rise. */
static void run_purged_whole(void) {
    struct delta add = delta(11, 1, 2, 3, -20);
    struct request on_a = request(10, add), on_b = request(11, add);

    begin();
    check(goes_on(on_a, delta(10, 1, 2, 3, -20), "xA1 3=-20") && purge(1) == 0, "A1 is composed and purged");
    check(goes_on(on_a, grouped(delta(10, 2, 2, 3, -20), 2), "xA2 3=-40") && purge(1) == 0, "A2 is of the next group");
    check(goes_on(urgently(on_b), prioritised(grouped(add, 3), 1, 5), "xB1 3=-60") && purge(1) == 0, "B1 is of the first block");
    check(bivamolune_purged_block(image) == 1 && bivamolune_purged_group(image) == 3, "which is purged");
    check(composes(urgently(on_a), 0, prioritised(grouped(delta(10, 3, 2, 3, -20), 4), 2, 5)), "A3 would be of the next block");
    check(goes_on(on_a, grouped(delta(10, 3, 2, 3, -20), 4), "xA3 3=-80") && purge(1) == 0, "and has none without priority");
    check(bivamolune_purged_block(image) == 1 && bivamolune_purged_group(image) == 4, "so that no block is raised");
    expect(0, 1, 4);
    expect_floor(10, 3);
    expect_floor(11, 1);
    expect_value(3, -80, -80);
    check(is_expected(), "four are purged, and nothing else is there");
    deliver(delta(10, 5, 1, 3, 0));
    check(refuses(on_a, 9), "A5 held above the floor that a purge made");
    check(goes_on(on_b, grouped(delta(11, 2, 2, 3, -20), 5), "xB2 3=-100"), "and the other line goes on beside it");
}

/* A part of the log is purged: only the rest is named. */
static void run_purged_part(void) {
    struct delta add = delta(11, 1, 2, 3, -20);

    begin();
    for (uint8_t line = 16; line < 25; line++) deliver(delta(line, 1, 1, 3, line));
    check(refuses(request(10, add), 11) && purge(1) == 0, "nine lone lines, and one is purged");
    check(compose(request(10, add)) == 256 * (40 + 8 * 12 + 8) && message[45] == 17, "the other eight are named");
    check(purge(7) == 0 && goes_on(request(10, add), grouped(naming(delta(10, 1, 2, 3, -20), 24, 1), 2), "xA1 3=4"), "then one");
    check(goes_on(request(16, add), grouped(naming(delta(16, 2, 2, 3, -20), 10, 1), 2), "xG2 3=-16"), "above its floor");
}

static uint8_t other[BIVAMOLUNE_IMAGE_SIZE];

/* B1 of block 1, then C1: at this station and at another. */
static void begin_both(void) {
    begin();
    deliver(prioritised(delta(11, 1, 2, 3, -20), 1, 5));
    deliver(naming(delta(12, 1, 1, 4, 9), 11, 1));
    memcpy(other, image, sizeof image);
}

/* What this station composed comes to the other one, which has not purged. */
static uint32_t receive_there(struct delta d) {
    memcpy(image, other, sizeof image);
    return deliver(d);
}

/* The header: let the last delta of the log stand, or purge the same everywhere before anyone composes. */
static void run_last_one(void) {
    struct delta a1 = delta(10, 1, 1, 3, 1500), named = grouped(naming(a1, 12, 1), 2), lone = grouped(a1, 2);

    begin_both();
    check(purge(1) == 0 && goes_on(request(10, a1), named, "xA1 3=1500"), "composed with the last one left");
    check(answers(receive_there(named), 0, 0, 1, "xA1 3=1500"), "it is the last one there, too");
    begin_both();
    check(purge(2) == 0 && goes_on(request(10, a1), lone, "xA1 3=1500"), "composed with none left");
    memcpy(expected, image, sizeof image);
    check(answers(receive_there(lone), 0, 2, 3, "uC1 4=0,uB1 3=0,xA1 3=1500,xB1 3=1480,xC1 4=9"), "it goes before a block there");
    begin_both();
    check(purge(2) == 0 && answers(deliver(lone), 0, 0, 1, "xA1 3=1500") && memcmp(image, expected, sizeof image) == 0,
          "not where the same was purged");
}

/* An image of 16,383, and null with size 0 for each buffer and for all. */
static void run_compose_sizes(void) {
    struct delta a1 = delta(10, 1, 1, 3, 1500);
    struct request r = request(10, a1);
    uint8_t *line = r.line, *commands = r.commands;

    begin();
    check(bivamolune_compose(image, sizeof image - 1, line, 10, commands, 8, 0, 0, message, 200) == 1, "an image of 16,383");
    check(bivamolune_compose(NULL, 0, line, 10, commands, 8, 0, 0, message, 200) == 1, "no image");
    check(bivamolune_compose(image, sizeof image, NULL, 0, commands, 8, 0, 0, message, 200) == 1, "no line");
    check(bivamolune_compose(image, sizeof image, line, 10, NULL, 0, 0, 0, message, 200) == 3, "no commands");
    check(bivamolune_compose(image, sizeof image, line, 10, commands, 8, 0, 0, NULL, 0) == 1, "no message buffer");
    check(bivamolune_compose(NULL, 0, NULL, 0, NULL, 0, 0, 0, NULL, 0) == 1, "nothing at all");
}

/* The answer of setpoint; the image is as it was. */
static int value_is(size_t size, uint32_t tag, uint32_t code, int32_t value) {
    uint64_t answer;
    memcpy(before, image, sizeof image);
    answer = bivamolune_setpoint(image, size, tag);
    return bivamolune_setpoint_code(answer) == code && bivamolune_setpoint_value(answer) == value
        && memcmp(before, image, sizeof image) == 0;
}

static void run_setpoint(void) {
    begin();
    check(value_is(sizeof image, 0, 0, 0) && value_is(sizeof image, 63, 0, 0), "no deltas, all zero");
    deliver(delta(10, 1, 1, 3, 1500));
    deliver(delta(11, 1, 2, 63, -20));
    deliver(delta(12, 1, 1, 0, BIVAMOLUNE_VALUE_LEAST));
    check(value_is(sizeof image, 3, 0, 1500), "tag 3");
    check(value_is(sizeof image, 63, 0, -20), "tag 63");
    check(value_is(sizeof image, 0, 0, BIVAMOLUNE_VALUE_LEAST), "the least value");
    check(value_is(sizeof image, 64, 12, 0) && value_is(sizeof image, 0xFFFFFFFFu, 12, 0), "a tag above 63");
    check(value_is(sizeof image - 1, 3, 1, 0) && value_is(0, 64, 1, 0), "an image of 16,383 and of nothing");
    check(bivamolune_setpoint(NULL, 0, 3) == 1, "no image");
    image[1] = 1;
    check(value_is(sizeof image, 3, 2, 0) && value_is(sizeof image, 64, 2, 0), "a damaged count");
    lay_floors();
    check(value_is(sizeof image, 3, 0, 720) && value_is(sizeof image, 63, 0, -20), "values above floors");
}

/* The answer of log message, and the bytes of the part; the image is as it was. */
static int part_is(size_t size, uint32_t place, uint32_t code, size_t offset, struct delta d) {
    uint64_t answer;
    memcpy(before, image, sizeof image);
    answer = bivamolune_log_message(image, size, place);
    return bivamolune_log_message_code(answer) == code && bivamolune_log_message_offset(answer) == offset
        && bivamolune_log_message_length(answer) == d.size && memcmp(image + offset, d.bytes, d.size) == 0
        && memcmp(before, image, sizeof image) == 0;
}

static void run_log_message(void) {
    struct delta a1 = delta(10, 1, 1, 3, 1500), b1 = naming(delta(11, 1, 2, 3, -20), 10, 1), nothing = {{0}, 0};

    begin();
    check(part_is(sizeof image, 0, 12, 0, nothing), "place 0 of an empty log");
    deliver(b1);
    check(part_is(sizeof image, 0, 12, 0, nothing), "a held delta is not in the log");
    deliver(a1);
    check(part_is(sizeof image, 0, 0, 544, a1), "the first message");
    check(part_is(sizeof image, 1, 0, 592, b1), "the second message");
    check(part_is(sizeof image, 2, 12, 0, nothing) && part_is(sizeof image, 0xFFFFFFFFu, 12, 0, nothing), "no such place");
    check(part_is(sizeof image - 1, 0, 1, 0, nothing) && part_is(0, 9, 1, 0, nothing), "an image of 16,383 and of nothing");
    check(bivamolune_log_message(NULL, 0, 0) == 1, "no image to look into");
    image[1] = 1;
    check(part_is(sizeof image, 0, 2, 0, nothing) && part_is(sizeof image, 9, 2, 0, nothing), "a damaged count");
    lay_floors();
    check(part_is(sizeof image, 0, 0, 568, delta(10, 6, 2, 3, 20)) && part_is(sizeof image, 1, 12, 0, nothing),
        "the messages stand behind the floors");
}

int main(void) {
    run_composed();
    run_compose_codes();
    run_past_floors();
    run_emptied();
    run_purged_whole();
    run_purged_part();
    run_last_one();
    run_compose_sizes();
    run_setpoint();
    run_log_message();
    return report();
}
