/* Stations that are carried over from images of before version 0.5.0, by carry.h. The images are those of old_images.h, which the
 * library of before wrote; then such that are damaged, of other sizes, or any bytes. C++ reads it as well. */
#include "purge.h"
#include "carry.h"
#include "old_images.h"

enum { OLD_HEADER = 16, OLD_MESSAGES = 272 };

/* An image of before, with what it has by the list of its deliveries in old_images.c: counts, bytes used then and now, and the
 * value of a tag. */
static const struct fixture {
    const char *name;
    const uint8_t *coded;
    size_t size;
    uint32_t logged, held, used_before, used_now, tag;
    int32_t value;
} fixtures[] = {
    {"no deltas", old_none, sizeof old_none, 0, 0, 272, 544, 3, 0},
    {"A1", old_a1, sizeof old_a1, 1, 0, 320, 592, 3, 1500},
    {"several, and held ones", old_several, sizeof old_several, 6, 3, 840, 1112, 3, 999980},
    {"a ring", old_ring, sizeof old_ring, 1, 3, 500, 772, 2, -2},
    {"64 deltas", old_full, sizeof old_full, 58, 6, 8076, 8348, 63, 63000},
};
enum { FIXTURES = sizeof fixtures / sizeof fixtures[0], NONE = 0, A1 = 1, SEVERAL = 2, RING = 3, FULL = 4 };

static uint8_t old[BIVAMOLUNE_OLD_IMAGE_SIZE + 1], untouched[BIVAMOLUNE_OLD_IMAGE_SIZE];

/* Lays an image of before down; a zero is followed by the number of zeros. */
static void lay_old(const struct fixture *f) {
    size_t at = 0;
    memset(old, 0, sizeof old);
    for (size_t i = 0; i < f->size; i++) {
        if (f->coded[i] == 0) at += f->coded[++i];
        else old[at++] = f->coded[i];
    }
}

static int carry_sized(size_t size) {
    memset(image, 0xEE, sizeof image);
    memset(steps, 0xEE, sizeof steps);
    return bivamolune_carry(old, size, image, steps);
}

static int carry(void) { return carry_sized(BIVAMOLUNE_OLD_IMAGE_SIZE); }

/* ---- what was carried, by the calls and by the bytes of both */

/* Whether the log has the old one's messages in order, and behind them stand the held ones. */
static int has_messages(void) {
    const uint32_t logged = bivamolune_two_bytes_at(old, 0), used = bivamolune_two_bytes_at(old, 8);
    size_t before = OLD_MESSAGES, now = 544;
    for (uint32_t place = 0; place < logged; place++) {
        uint64_t part = bivamolune_log_message(image, sizeof image, place);
        size_t length = bivamolune_two_bytes_at(old, before + 4);
        if (bivamolune_log_message_code(part) != 0 || bivamolune_log_message_length(part) != length
            || bivamolune_log_message_offset(part) != now || memcmp(image + now, old + before, length) != 0) return 0;
        before += length;
        now += length;
    }
    return bivamolune_log_message_code(bivamolune_log_message(image, sizeof image, logged)) == BIVAMOLUNE_NOT_THERE
        && used - before == bivamolune_bytes_used(image) - now && memcmp(image + now, old + before, used - before) == 0;
}

static int has_values(void) {
    int right = 1;
    for (uint32_t tag = 0; tag < BIVAMOLUNE_TAGS; tag++)
        right = right && memcmp(old + 16 + 4 * (size_t)tag, image + 32 + 4 * (size_t)tag, 4) == 0
            && bivamolune_setpoint_value(bivamolune_setpoint(image, sizeof image, tag)) == setpoint(tag)
            && bivamolune_base_value(image, tag) == 0;
    return right;
}

/* Whether the new image is one, and of the same station. */
static int is_same(void) {
    return judge(image) == BIVAMOLUNE_ACCEPTED && bivamolune_log_count(image) == bivamolune_two_bytes_at(old, 0)
        && bivamolune_held_count(image) == bivamolune_two_bytes_at(old, 2) && bivamolune_floor_count(image) == 0
        && bivamolune_purged_block(image) == 0 && bivamolune_purged_group(image) == 0 && has_messages() && has_values();
}

/* Whether nothing was carried: the buffer is all zero, and no image. */
static int is_nothing(void) {
    int right = 1;
    for (size_t i = 0; i < sizeof image; i++) right = right && image[i] == 0;
    return right && judge(image) == BIVAMOLUNE_NO_IMAGE;
}

static int refuses(void) { return !carry() && is_nothing(); }

/* Whether each message of the old image is there already. */
static int knows_all(void) {
    const uint32_t used = bivamolune_two_bytes_at(old, 8);
    int right = 1;
    for (size_t at = OLD_MESSAGES, length; at < used; at += length) {
        length = bivamolune_two_bytes_at(old, at + 4);
        right = right && bivamolune_deliver(image, sizeof image, old + at, length, steps, sizeof steps) == 0;
    }
    return right;
}

static void run_fixture(const struct fixture *f) {
    lay_old(f);
    memcpy(untouched, old, sizeof untouched);
    check(bivamolune_two_bytes_at(old, 0) == f->logged && bivamolune_two_bytes_at(old, 2) == f->held
        && bivamolune_two_bytes_at(old, 8) == f->used_before, f->name);
    check(judge(old) == BIVAMOLUNE_NO_IMAGE, "an image of before is none now");
    check(carry() && counts(f->logged, f->held, f->used_now) && setpoint(f->tag) == f->value, "carried over");
    check(is_same(), "the same log, held deltas and values");
    check(memcmp(untouched, old, sizeof untouched) == 0, "the old image is only read");
    check(knows_all() && is_same(), "each delta is there already");
    memcpy(old, image, sizeof image);
    check(refuses(), "an image of now is none of before");
}

/* The values of the fixture with several, by hand. */
static void run_values(void) {
    static const struct {
        uint32_t tag;
        int32_t value;
    } values[] = {{0, -1000000}, {3, 999980}, {4, 21}, {5, 0}, {8, 0}, {40, -3000}, {41, 0}, {42, -1000}, {44, 1000}, {45, 2000},
                  {46, 3000}, {63, -1000000}};
    int right = 1;
    lay_old(&fixtures[SEVERAL]);
    check(carry(), "several");
    for (size_t i = 0; i < sizeof values / sizeof values[0]; i++) right = right && setpoint(values[i].tag) == values[i].value;
    check(right, "their values");
}

/* The station goes on: what it waits for comes, and its line has a next number. */
static void run_on(void) {
    const uint8_t line[BIVAMOLUNE_LINE_SIZE] = {0, 0, 0, 0, 0, 10, 0, 0, 0, 1};
    struct delta a2 = delta(10, 2, 1, 3, 7);
    uint8_t message[BIVAMOLUNE_MESSAGE_ROOM];
    uint32_t answer;
    lay_old(&fixtures[A1]);
    check(carry(), "A1 for the next one");
    answer = bivamolune_compose(image, sizeof image, line, sizeof line, a2.bytes + 40, 8, 0, 0, message, sizeof message);
    check(answer == 256 * 48 && memcmp(message, a2.bytes, 48) == 0, "the next delta of its line");
    check(answers(deliver(delta(10, 1, 1, 3, 2)), 7, 0, 0, ""), "A1 with another value");
    lay_old(&fixtures[SEVERAL]);
    check(carry() && answers(deliver(delta(16, 1, 1, 9, 2)), 0, 3, 6, "uC2 4=20,uB1 3=1000000,uC1 3=1000000 4=0,xG1 9=2,"
        "xG2 9=1 8=1000000,xH1 3=1000000,xC1 4=20 3=1000000,xB1 3=999980,xC2 4=21"), "what it was waiting for");
    lay_old(&fixtures[FULL]);
    check(carry() && answers(deliver(delta(65, 1, 1, 3, 2)), 8, 0, 0, ""), "64 are there");
}

/* What was carried is purged like any other log: floors A2, B1, C2 and D1, and three held ones behind them. */
static void run_purged(void) {
    lay_old(&fixtures[SEVERAL]);
    check(carry() && purge_leaves(7, BIVAMOLUNE_PAST_LOG), "more than was carried");
    check(purge(6) == 0 && counts(0, 3, 544 + 4 * 12 + 188), "carried, then purged");
    check(bivamolune_floor_count(image) == 4 && bivamolune_purged_block(image) == 1 && bivamolune_purged_group(image) == 1
        && bivamolune_two_bytes_at(bivamolune_floor(image, 0), BIVAMOLUNE_LINE_SIZE) == 2 && setpoint(3) == 999980
        && bivamolune_base_value(image, 3) == 999980, "what the purge left");
    check(knows_all() && counts(0, 3, 544 + 4 * 12 + 188), "each delta is there or was purged");
    memcpy(old, image, sizeof image);
    check(refuses(), "an image with floors is none of before");
    lay_old(&fixtures[FULL]);
    check(carry() && purge_leaves(33, BIVAMOLUNE_MANY_FLOORS) && purge(32) == 0 && counts(26, 6, bivamolune_bytes_used(image))
        && bivamolune_accepted(deliver(delta(65, 1, 1, 3, 2))), "64 are there, and 32 are purged");
}

/* 64 deltas of 200 bytes, all held: each names the next eight of a ring. So the most bytes are in use, 13,072 of them. */
static void lay_longest(void) {
    memset(old, 0, sizeof old);
    put(old + 2, 64, 2);
    put(old + 4, 16, 2);
    put(old + 6, 272, 2);
    put(old + 8, 272 + 64 * 200, 2);
    for (uint8_t line = 0; line < 64; line++) {
        struct delta d = delta(line, 1, 1, line, line);
        uint8_t named = 0, *at = old + OLD_MESSAGES + 200 * (size_t)line;
        for (uint8_t tag = 0; tag < 7; tag++) d = commanding(d, 2, tag, 1);
        memcpy(at, d.bytes, 40);
        memcpy(at + 136, d.bytes + 40, 64);
        for (uint8_t other = 0; other < 64; other++) {
            int ahead = (other + 64 - line) % 64;
            if (ahead >= 1 && ahead <= 8) put_sequence(at + 40 + 12 * (size_t)named++, other, 1);
        }
        at[2] = named;
        put(at + 4, 200, 2);
        put(at + 8, 136, 2);
    }
}

static void run_longest(void) {
    lay_longest();
    check(carry() && is_same() && counts(0, 64, 544 + 64 * 200), "64 of the longest");
    old[3] = 65;
    check(refuses(), "65 by the count");
    old[3] = 0;
    old[1] = 64;
    check(refuses(), "in the log by the count");
}

/* ---- damage */

/* Whether nothing is carried with the byte at a place changed to each of some others. The byte is put back. */
static int refuses_at(size_t at, unsigned step) {
    const uint8_t byte = old[at];
    int right = 1;
    for (unsigned change = 1; change < 256; change += step) {
        old[at] = (uint8_t)(byte + change);
        right = right && refuses();
    }
    old[at] = byte;
    return right;
}

/* Each byte of the header and of the length fields, and values: of small images all changes or many, of that of 64 some. */
static void run_damage(const struct fixture *f) {
    const int small = f != &fixtures[FULL];
    int header = 1, lengths = 1, values = 1;
    lay_old(f);
    for (size_t at = 0; at < OLD_HEADER; at++) header = header && refuses_at(at, small ? 1 : 127);
    for (size_t at = OLD_HEADER; at < OLD_MESSAGES; at += small ? 1 : 51) values = values && refuses_at(at, 127);
    for (size_t at = OLD_MESSAGES, next; at < f->used_before; at = next) {
        next = at + bivamolune_two_bytes_at(old, at + 4);
        lengths = lengths && refuses_at(at + 4, small ? 17 : 254) && refuses_at(at + 5, small ? 17 : 254);
    }
    check(header, "a damaged header");
    check(values, "a damaged value");
    check(lengths, "a damaged length");
    check(refuses_at(f->used_before, 127) && refuses_at(sizeof old - 2, 127), "a byte behind the last message");
}

/* Each byte of the messages: the damage is refused, or has made an image of before with another delta, and is carried as that. */
static void run_message_damage(const struct fixture *f) {
    static const uint8_t changes[] = {1, 2, 0x80, 0xFF};
    unsigned refused = 0, carried = 0, wrong = 0;
    lay_old(f);
    for (size_t at = OLD_MESSAGES; at < f->used_before; at++)
        for (size_t i = 0; i < sizeof changes; i++) {
            int found;
            old[at] ^= changes[i];
            found = carry();
            wrong += found ? !is_same() : !is_nothing();
            carried += found != 0;
            refused += found == 0;
            old[at] ^= changes[i];
        }
    check(wrong == 0 && refused > 0 && carried > 0, "a damaged message is refused, or carried as it is");
}

/* What code 2 did not find before is not found: a held delta with another value. */
static void run_held(void) {
    lay_old(&fixtures[RING]);
    check(old[379] == 220, "the value of A1");
    old[379] = 221;
    check(carry() && is_same() && image[651] == 221, "a held delta that nobody sent is carried");
    check(answers(deliver(naming(delta(10, 1, 1, 3, 1500), 11, 1)), 7, 0, 0, ""), "and the true one refused");
}

/* Two neighbouring parts of an image change places. */
static void exchange(size_t first, size_t second, size_t end) {
    uint8_t moved[400];
    memcpy(moved, old + first, second - first);
    memmove(old + first, old + second, end - second);
    memcpy(old + first + (end - second), moved, second - first);
}

/* Images that are right but for their order, their counts or their values. */
static void run_wrong_sets(void) {
    lay_old(&fixtures[SEVERAL]);
    exchange(272, 320, 384);
    check(refuses(), "A2 before A1");
    lay_old(&fixtures[SEVERAL]);
    exchange(652, 708, 768);
    check(refuses(), "held ones out of order");
    lay_old(&fixtures[SEVERAL]);
    old[1] = 5, old[3] = 4;
    check(refuses(), "one of the log among the held");
    old[1] = 7, old[3] = 2;
    check(refuses(), "a held one in the log");
    lay_old(&fixtures[SEVERAL]);
    put(old + 8, 768, 2);
    old[3] = 2;
    check(refuses(), "a message behind the bytes used");
    memset(old + 768, 0, 72);
    check(carry() && is_same() && counts(6, 2, 1040), "a held one less");
    put(old + 8, 770, 2);
    check(refuses(), "two bytes more in use");
    lay_old(&fixtures[A1]);
    memcpy(old + 320, old + 272, 48);
    put(old + 8, 368, 2);
    old[1] = 2;
    check(refuses(), "A1 twice");
    old[320 + 23] = 2;
    check(carry() && is_same() && counts(2, 0, 640), "A1 and A2");
    old[1] = 1, old[3] = 1;
    check(refuses(), "A2 as a held one");
}

/* ---- other sizes, and any bytes */
static void run_sizes(void) {
    lay_old(&fixtures[A1]);
    check(!carry_sized(0) && is_nothing() && !carry_sized(OLD_HEADER) && is_nothing(), "few bytes");
    check(!carry_sized(BIVAMOLUNE_OLD_IMAGE_SIZE - 1) && is_nothing(), "a byte less");
    check(!carry_sized(BIVAMOLUNE_OLD_IMAGE_SIZE + 1) && is_nothing(), "a byte more");
    memset(image, 0xEE, sizeof image);
    check(!bivamolune_carry(NULL, 0, image, steps) && is_nothing(), "no old image");
    memset(old, 0, sizeof old);
    check(refuses(), "all zero");
    memset(old, 0xFF, sizeof old);
    check(refuses(), "all ones");
}

/* B1 four times and A1 331 times, which end where the buffer does, with counts up to all that a header can say. A repeat is
 * accepted, so that nothing but the count ends the messages. */
static void run_repeats(void) {
    static const uint32_t counts_of_log[] = {2, 64, 65, 256, 335, 336, 65535};
    const struct delta b1 = commanding(delta(11, 1, 2, 3, -20), 2, 4, 1), a1 = delta(10, 1, 1, 3, 1500);
    size_t at = OLD_MESSAGES;
    int right = 1;
    lay_old(&fixtures[NONE]);
    for (; at < OLD_MESSAGES + 4 * 56; at += 56) memcpy(old + at, b1.bytes, 56);
    for (; at < BIVAMOLUNE_OLD_IMAGE_SIZE; at += 48) memcpy(old + at, a1.bytes, 48);
    check(at == BIVAMOLUNE_OLD_IMAGE_SIZE, "the messages end where the buffer does");
    put(old + 8, BIVAMOLUNE_OLD_IMAGE_SIZE, 2);
    for (size_t i = 0; i < sizeof counts_of_log / sizeof counts_of_log[0]; i++) {
        put(old, counts_of_log[i], 2);
        put(old + 2, 0, 2);
        right = right && refuses();
        put(old + 2, 65535, 2);
        right = right && refuses();
    }
    check(right, "two deltas over and over");
}

/* Any bytes behind a right header: messages that have right lengths by chance or on purpose, up to 64 of 200. */
static void run_any_bytes(void) {
    uint32_t seed = 17;
    int right = 1;
    for (unsigned round = 0; round < 400; round++) {
        lay_old(&fixtures[NONE]);
        for (size_t at = round % 2 == 0 ? OLD_MESSAGES : 0; at < BIVAMOLUNE_OLD_IMAGE_SIZE; at++) {
            seed = seed * 1664525u + 1013904223u;
            if (round % 2 == 0 || at < 4 || at == 8 || at == 9 || at >= OLD_HEADER) old[at] = (uint8_t)(seed >> 24);
        }
        old[0] = old[2] = 0;
        old[1] = (uint8_t)(round % 65);
        old[3] = (uint8_t)(64 - round % 65);
        if (round % 4 < 2) put(old + OLD_MESSAGES + 4, 48 + round % 153, 2);
        right = right && refuses();
    }
    check(right, "any bytes");
}

int main(void) {
    for (size_t i = 0; i < FIXTURES; i++) run_fixture(&fixtures[i]);
    run_values();
    run_on();
    run_purged();
    run_longest();
    for (size_t i = 0; i < FIXTURES; i++) run_damage(&fixtures[i]);
    run_message_damage(&fixtures[SEVERAL]);
    run_message_damage(&fixtures[RING]);
    run_held();
    run_wrong_sets();
    run_sizes();
    run_repeats();
    run_any_bytes();
    return report();
}
