/* Writes old_images.h: images that the library of before version 0.5.0 made, for carrying.c. It is no host of the gate, which has
 * another library; it was run once. To run it again, build the library of commit c70c02e in a folder OLD of its own
 * (`rt staticlib bivamolune` there), then here
 *
 *     gcc -std=c11 -IOLD/include old_images.c OLD/target/staticlib/libbivamolune.a -o old_images
 *     ./old_images >old_images.h
 *
 * It ends with 1 if a delivery is refused, or if the library is one with another layout. */
#include "station.h"

enum { PER_LINE = 28 };

static void must(int right, const char *what) {
    if (right) return;
    fprintf(stderr, "no fixture: %s\n", what);
    exit(1);
}

static void receive(struct delta d) { must(bivamolune_accepted(deliver(d)), "a delivery is refused"); }

/* With a dependency behind those that it has. */
static struct delta naming_also(struct delta d, uint8_t line, uint16_t number) {
    size_t at = 40u + 12u * d.bytes[2];
    memmove(d.bytes + at + 12, d.bytes + at, d.size - at);
    put_sequence(d.bytes + at, line, number);
    d.bytes[2]++;
    d.size += 12;
    put(d.bytes + 4, (uint32_t)d.size, 2);
    put(d.bytes + 8, (uint32_t)at + 12, 2);
    return d;
}

/* ---- the images */
static void make_none(void) {}

static void make_a1(void) { receive(delta(10, 1, 1, 3, 1500)); }

/* Six in the log, with and without priority, one to eight commands, values at both ends. Three are held: G2, what names it, and
 * one that names deltas of lines that nobody has heard of. */
static void make_several(void) {
    struct delta a2 = commanding(commanding(delta(10, 2, 2, 3, 999000), 3, 4, -7), 2, 0, -1000000);
    struct delta d1 = naming(delta(13, 1, 1, 63, -1000000), 10, 1);
    struct delta g2 = commanding(delta(16, 2, 1, 9, 1), 1, 8, 1000000);
    struct delta i1 = naming_also(naming(delta(18, 1, 1, 5, 3), 90, 7), 91, 0xFFFF);
    for (uint8_t tag = 40; tag < 47; tag++) d1 = commanding(d1, (uint8_t)(tag % 3 + 1), tag, 1000 * tag - 43000);
    receive(naming(delta(17, 1, 2, 3, 5), 16, 2));
    receive(prioritised(delta(11, 1, 2, 3, -20), 1, 5));
    receive(a2);
    receive(prioritised(commanding(delta(12, 1, 2, 4, 20), 2, 3, 1), 1, 7));
    receive(g2);
    receive(d1);
    receive(delta(10, 1, 1, 3, 1500));
    receive(prioritised(i1, BIVAMOLUNE_NUMBER_MOST, BIVAMOLUNE_NUMBER_MOST));
    receive(delta(12, 2, 2, 4, 1));
}

/* A1 and B1 name each other and D1 names A1: held for good. C1 is in the log. */
static void make_ring(void) {
    receive(naming(delta(10, 1, 1, 3, 1500), 11, 1));
    receive(naming(delta(13, 1, 1, 6, 6), 10, 1));
    receive(delta(12, 1, 1, 2, -2));
    receive(naming(delta(11, 1, 2, 3, -20), 10, 1));
}

/* 64 lines with a delta each, 48 to 200 bytes long, that name up to eight lines before. That of line 57 has number 2, so that it
 * is held, as are those that name its number 1 and those that name them. The last line comes first. */
static void make_full(void) {
    for (uint8_t line = 64; line > 0; line--) {
        struct delta d = delta(line, line == 57 ? 2 : 1, (uint8_t)(line % 3 + 1), line % 64, 1000 * line);
        uint8_t named = line % 9 < line ? line % 9 : (uint8_t)(line - 1);
        for (uint8_t i = 0; i < line % 8; i++)
            d = commanding(d, (uint8_t)(i % 3 + 1), (uint8_t)(line / 2 + i), 7 * line - 300 * i);
        for (uint8_t i = named; i > 0; i--) d = naming_also(d, (uint8_t)(line - i), 1);
        receive(d);
    }
}

/* ---- as text */
static unsigned on_line;

static void print_number(unsigned number) {
    printf("%s%u,", on_line == 0 ? "    " : " ", number);
    on_line = (on_line + 1) % PER_LINE;
    if (on_line == 0) printf("\n");
}

/* The bytes used, with a count behind each zero. */
static void print_image(const char *name) {
    size_t used = bivamolune_bytes_used(image);
    printf("\nstatic const uint8_t old_%s[] = {\n", name);
    on_line = 0;
    for (size_t at = 0; at < used;) {
        size_t zeros = 0;
        while (at + zeros < used && image[at + zeros] == 0 && zeros < 255) zeros++;
        print_number(image[at]);
        if (zeros > 0) print_number((unsigned)zeros);
        at += zeros > 0 ? zeros : 1;
    }
    printf("%s};\n", on_line == 0 ? "" : "\n");
}

static void write_image(const char *name, void (*make)(void)) {
    begin();
    make();
    must(image[5] == 16 && image[7] == 16, "not the layout of before");
    print_image(name);
}

int main(void) {
    printf("/* Images of before version 0.5.0, as the library of commit c70c02e wrote them, by old_images.c, which says how. Each has\n"
           " * its bytes used; a zero is followed by how many zeros stand there. What is behind them is zero. */\n"
           "#ifndef OLD_IMAGES_H\n#define OLD_IMAGES_H\n\n#include <stdint.h>\n");
    write_image("none", make_none);
    write_image("a1", make_a1);
    write_image("several", make_several);
    write_image("ring", make_ring);
    write_image("full", make_full);
    printf("\n#endif\n");
    must(failed == 0, "empty refuses");
    return 0;
}
