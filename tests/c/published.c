/* The published ordering example, MS-GRVDYNM section 4.5, composed and delivered at three stations through C. Groups,
 * sequences, dependencies and the final order are those of the publication, as is the text of each DepSeq. C++ reads it as
 * well. */
#include "station.h"

/* Endpoint UIDs and creator identifiers of the publication. */
static const uint8_t line_a[10] = {0xE9, 0x64, 0x14, 0x19, 0xD1, 0x8C, 0x02, 0xB9, 0x49, 0x5F};
static const uint8_t line_b[10] = {0x64, 0x01, 0xC3, 0x7E, 0xFB, 0x36, 0x6A, 0x87, 0xF4, 0x21};
static const uint8_t line_c[10] = {0xE2, 0xD2, 0x0D, 0xF7, 0xD8, 0x5D, 0x3E, 0x41, 0x9C, 0xCD};

/* A delta of the publication: its line and number. */
struct name {
    const uint8_t *line;
    uint16_t number;
};

static const struct name a1 = {line_a, 7}, a2 = {line_a, 8}, a3 = {line_a, 9}, b1 = {line_b, 3}, b2 = {line_b, 4},
                         c0 = {line_c, 2}, c1 = {line_c, 3}, none = {NULL, 0};

static uint8_t at_a[BIVAMOLUNE_IMAGE_SIZE], at_b[BIVAMOLUNE_IMAGE_SIZE], at_c[BIVAMOLUNE_IMAGE_SIZE];

static int named(const uint8_t *sequence, struct name n) {
    return memcmp(sequence, n.line, 10) == 0 && sequence[10] * 256 + sequence[11] == n.number;
}

static void receive(uint8_t *station, struct delta d) {
    check(bivamolune_accepted(bivamolune_deliver(station, BIVAMOLUNE_IMAGE_SIZE, d.bytes, d.size, steps, sizeof steps)), "receive");
}

/* Composes a delta that sets tag 0 to 1, and delivers it where it was composed. */
static struct delta create(uint8_t *station, const uint8_t *line) {
    const uint8_t command[BIVAMOLUNE_COMMAND_SIZE] = {1, 0, 0, 0, 0, 0, 0, 1};
    struct delta d = {{0}, 0};
    uint32_t answer = bivamolune_compose(station, BIVAMOLUNE_IMAGE_SIZE, line, BIVAMOLUNE_LINE_SIZE, command, sizeof command, 0, 0,
                                         d.bytes, sizeof d.bytes);
    check(bivamolune_accepted(answer), "compose");
    d.size = bivamolune_composed_length(answer);
    receive(station, d);
    return d;
}

/* Creates a delta of the publication: its group, and up to two dependencies by ascending sequence. */
static struct delta publish(uint8_t *station, struct name own, uint8_t group, struct name first, struct name second) {
    struct delta d = create(station, own.line);
    uint8_t dependencies = (uint8_t)((first.line != NULL) + (second.line != NULL));
    check(named(d.bytes + 12, own), "its sequence");
    check(d.bytes[24] + d.bytes[25] + d.bytes[26] == 0 && d.bytes[27] == group, "its group");
    check(d.bytes[2] == dependencies && (first.line == NULL || named(d.bytes + 40, first))
        && (second.line == NULL || named(d.bytes + 52, second)), "its dependencies");
    return d;
}

/* "A1 is not the first delta generated in the space": the ten before it, known to all three. */
static void begin_space(void) {
    const uint8_t *const history[10] = {line_a, line_a, line_a, line_a, line_a, line_b, line_a, line_b, line_c, line_c};
    begin();
    for (size_t i = 0; i < 10; i++) create(image, history[i]);
    memcpy(at_a, image, sizeof image);
    memcpy(at_b, image, sizeof image);
    memcpy(at_c, image, sizeof image);
}

/* The log past the history. */
static void check_order(const uint8_t *station) {
    const struct name order[6] = {a1, a2, b1, b2, c1, a3};
    check(bivamolune_log_count(station) == 16 && bivamolune_held_count(station) == 0, "sixteen in the log");
    for (uint32_t i = 0; i < 6; i++) {
        uint64_t part = bivamolune_log_message(station, BIVAMOLUNE_IMAGE_SIZE, 10 + i);
        check(bivamolune_log_message_code(part) == 0
            && named(station + bivamolune_log_message_offset(part) + 12, order[i]), "the final order");
    }
}

/* A DepSeq as it is printed: read, it names these, and written again it is the same. */
static void check_text(const char *dep_seq, struct name one, struct name two) {
    uint8_t sequences[BIVAMOLUNE_SEQUENCES_ROOM], text[BIVAMOLUNE_TEXT_ROOM];
    size_t length = strlen(dep_seq), size = two.line == NULL ? 12 : 24;
    uint32_t answer = bivamolune_read_sequences((const uint8_t *)dep_seq, length, sequences, sizeof sequences);
    check(bivamolune_accepted(answer) && bivamolune_written_length(answer) == size, "a DepSeq is read");
    check(named(sequences, one) && (two.line == NULL || named(sequences + 12, two)), "what a DepSeq names");
    check(bivamolune_write_sequences(sequences, size, text, sizeof text) == 256 * length, "a DepSeq is written");
    check(memcmp(text, dep_seq, length) == 0, "a DepSeq as it was");
}

/* The DepSeq of A1, B1, C1 and A3. That of C1 is not ascending. */
static void check_texts(void) {
    check_text("E2D20DF7D85D3E419CCD0002", c0, none);
    check_text("E9641419D18C02B9495F0007", a1, none);
    check_text("E9641419D18C02B9495F0008,6401C37EFB366A87F4210003", a2, b1);
    check_text("E2D20DF7D85D3E419CCD0003", c1, none);
}

int main(void) {
    struct delta first, second, from_b, from_c, later_b, last;
    begin_space();
    first = publish(at_a, a1, 3, c0, none);
    receive(at_b, first);
    receive(at_c, first);
    second = publish(at_a, a2, 3, none, none);
    receive(at_c, second);
    from_b = publish(at_b, b1, 4, a1, none);
    receive(at_a, from_b);
    receive(at_c, from_b);
    from_c = publish(at_c, c1, 4, b1, a2);
    receive(at_a, from_c);
    later_b = publish(at_b, b2, 4, none, none);
    last = publish(at_a, a3, 4, c1, none);
    /* Now each receives what it lacks, B the last first. */
    receive(at_a, later_b);
    receive(at_b, last);
    receive(at_b, from_c);
    receive(at_b, second);
    receive(at_c, last);
    receive(at_c, later_b);
    check_order(at_a);
    check_order(at_b);
    check_order(at_c);
    check(memcmp(at_a, at_b, sizeof at_a) == 0 && memcmp(at_b, at_c, sizeof at_b) == 0, "equal images");
    check_texts();
    return report();
}
