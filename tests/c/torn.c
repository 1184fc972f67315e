/* Images that a power failure tears: the places of save.h, and the only image of a host that writes over it. C++ reads it as
 * well.
 *
 * Of what was written and not yet flushed, a power failure leaves some sectors of 512 bytes and drops others. That is put
 * together here by hand, from the files before and after a save. What is saved by rename is flushed before it can be loaded;
 * saving.c looks at the order of the calls. Not tested: power that is cut, a sector that is torn within, and storage that
 * confirms a flush and has not made it. */
#include "storage.h"

enum {
    FILE_SIZE = BIVAMOLUNE_SECOND_PLACE_AT + BIVAMOLUNE_PLACE_SIZE,
    SECTORS = (FILE_SIZE + SECTOR - 1) / SECTOR,
    PAGE = 4096
};

/* ---- two places */
static uint8_t file_before[FILE_SIZE], file_after[FILE_SIZE], file_torn[FILE_SIZE];

/* The files before and after the save of the next image. */
static void save_next(unsigned before) {
    prepare(&in_places, before);
    get_file(file_before, sizeof file_before);
    if (bivamolune_save_in_places(folder, "station", saved[before]) != BIVAMOLUNE_SAVED) stop("the next image was not saved");
    get_file(file_after, sizeof file_after);
}

/* What loads if of the save some sectors are there. */
static char tear(unsigned before, const uint8_t *there) {
    for (size_t i = 0; i < sizeof file_torn; i++) file_torn[i] = there[i / SECTOR] ? file_after[i] : file_before[i];
    put_file(file_torn, sizeof file_torn);
    return what_loads(&in_places, before);
}

/* Which sectors are there: those before an end, those from it on, or some by chance. */
enum choice { PREFIX, SUFFIX, CHANCE };

static void choose(uint8_t *there, enum choice choice, size_t end, uint32_t *seed) {
    for (size_t i = 0; i < SECTORS; i++) {
        *seed = *seed * 1664525u + 1013904223u;
        there[i] = choice == CHANCE ? *seed >> 31 : (i < end) == (choice == PREFIX);
    }
}

static void run_tears(unsigned before, enum choice choice, size_t tears, const char *what) {
    uint32_t seed = 17;
    size_t kept = 0, changed = 0;
    save_next(before);
    for (size_t end = 0; end < tears; end++) {
        uint8_t there[SECTORS];
        char found;
        choose(there, choice, end, &seed);
        found = tear(before, there);
        kept += found == 'o';
        changed += found == 'n';
    }
    check(kept + changed == tears, what);
    check(kept > 0 && (changed > 0 || choice == CHANCE), "tears before and after the image was there");
}

/* A page is lost as it is written: the other place has no part of it. */
static void run_lost_pages(unsigned before) {
    const size_t place = before == 1 ? BIVAMOLUNE_SECOND_PLACE_AT : 0, end = place + BIVAMOLUNE_PLACE_SIZE;
    int kept = 1;
    save_next(before);
    for (size_t at = place / PAGE * PAGE; at < end; at += PAGE) {
        memcpy(file_torn, file_after, sizeof file_torn);
        memset(file_torn + at, 0xEE, at + PAGE < sizeof file_torn ? (size_t)PAGE : sizeof file_torn - at);
        put_file(file_torn, sizeof file_torn);
        kept = kept && what_loads(&in_places, before) == 'o';
    }
    check(kept, "in places, a page is lost");
}

/* What loads with the bit of a byte changed. */
static char damage(unsigned before, size_t at) {
    memcpy(file_torn, file_after, sizeof file_torn);
    file_torn[at] ^= 1;
    put_file(file_torn, sizeof file_torn);
    return what_loads(&in_places, before);
}

/* A bit of each byte of the newest place's number and checksum, and of a byte every 512 of its image. */
static void run_damage(void) {
    const size_t newest = BIVAMOLUNE_SECOND_PLACE_AT, image_end = newest + 8 + BIVAMOLUNE_IMAGE_SIZE;
    unsigned found = 0;
    save_next(1);
    for (size_t i = 0; i < 8; i++) found += damage(1, newest + i) == 'o' && damage(1, image_end + i) == 'o';
    for (size_t at = newest + 8; at < image_end; at += SECTOR) found += damage(1, at) == 'o';
    check(found == 8 + BIVAMOLUNE_IMAGE_SIZE / SECTOR, "a damaged place is not loaded");
    check(damage(1, 8) == 'n', "damage to the place before does not matter");
    file_torn[newest] ^= 1;
    put_file(file_torn, sizeof file_torn);
    check(bivamolune_load_in_places(folder, "station", loaded) == BIVAMOLUNE_NOT_WHOLE, "neither place valid");
}

/* The catalogued check value of CRC-64/XZ. */
static void run_checksum(void) {
    check(bivamolune_checksum((const uint8_t *)"123456789", 9) == 0x995DC9BBDF1939FAu, "the checksum of nine digits");
}

/* The last two numbers of a place. */
static void run_last_number(void) {
    memset(file_torn, 0, sizeof file_torn);
    bivamolune_put_place(file_torn, UINT64_MAX - 1, saved[0]);
    put_file(file_torn, sizeof file_torn);
    check(bivamolune_save_in_places(folder, "station", saved[1]) == BIVAMOLUNE_SAVED && what_loads(&in_places, 1) == 'n',
        "the last number");
    check(bivamolune_save_in_places(folder, "station", saved[2]) == BIVAMOLUNE_NOT_SAVED && what_loads(&in_places, 1) == 'n',
        "no number after it");
}

/* ---- files of another size, or none */
static enum bivamolune_loading load_cut(const struct way *way, const uint8_t *bytes, size_t size) {
    put_file(bytes, size);
    return way->load(folder, "station", loaded);
}

static void run_sizes(void) {
    static uint8_t longer[BIVAMOLUNE_IMAGE_SIZE + 1];
    memcpy(longer, saved[0], BIVAMOLUNE_IMAGE_SIZE);
    check(load_cut(&by_rename, longer, BIVAMOLUNE_IMAGE_SIZE) == BIVAMOLUNE_LOADED && is_loaded(saved[0]), "exactly an image");
    check(load_cut(&by_rename, longer, BIVAMOLUNE_IMAGE_SIZE - 1) == BIVAMOLUNE_NOT_WHOLE, "a byte less than an image");
    check(load_cut(&by_rename, longer, BIVAMOLUNE_IMAGE_SIZE + 1) == BIVAMOLUNE_NOT_WHOLE, "a byte more than an image");
    check(rename(path, left_over) == 0 && saves_again(&by_rename), "the same, left under the other name");
    check(load_cut(&by_rename, longer, 0) == BIVAMOLUNE_NOT_WHOLE, "an empty file for an image");

    save_next(1);
    check(load_cut(&in_places, file_after, FILE_SIZE - 1) == BIVAMOLUNE_LOADED && is_loaded(saved[0]), "a second place cut off");
    check(load_cut(&in_places, file_after, BIVAMOLUNE_PLACE_SIZE) == BIVAMOLUNE_LOADED && is_loaded(saved[0]), "no second place");
    check(load_cut(&in_places, file_after, BIVAMOLUNE_PLACE_SIZE - 1) == BIVAMOLUNE_NOT_WHOLE, "a first place cut off");
    check(load_cut(&in_places, file_after, 0) == BIVAMOLUNE_NOT_WHOLE, "an empty file for places");
}

static void run_names(const struct way *way) {
    char name[BIVAMOLUNE_FILE_NAME_MOST + 2], longest[sizeof folder + sizeof name];
    memset(name, 'n', sizeof name);
    name[sizeof name - 1] = 0;
    snprintf(longest, sizeof longest, "%s/%s", folder, name + 1);
    remove_files();
    check(way->load(folder, "station", loaded) == BIVAMOLUNE_NEVER_SAVED, "no file");
    check(way->load(path, "station", loaded) == BIVAMOLUNE_NOT_LOADED, "no folder to load from");
    check(way->save(path, "station", saved[0]) == BIVAMOLUNE_NOT_SAVED, "no folder to save in");
    check(way->save(folder, "./station", saved[0]) == BIVAMOLUNE_NOT_SAVED, "a name with a folder");
    check(way->save(folder, name, saved[0]) == BIVAMOLUNE_NOT_SAVED, "a name of 252");
    check(way->save(folder, "", saved[0]) == BIVAMOLUNE_NOT_SAVED && way->save(folder, "..", saved[0]) == BIVAMOLUNE_NOT_SAVED
        && way->save(folder, ".", saved[0]) == BIVAMOLUNE_NOT_SAVED, "no name of a file");
    check(way->save(folder, name + 1, saved[0]) == BIVAMOLUNE_SAVED && unlink(longest) == 0, "a name of 251");
}

/* ---- a host that writes over its only image */
static enum bivamolune_saving save_over(const char *in, const char *name, const uint8_t *bytes) {
    int opened = bivamolune_open_folder(in, name), file = bivamolune_open_file(opened, name, O_WRONLY | O_CREAT);
    int right = bivamolune_write_at(file, bytes, BIVAMOLUNE_IMAGE_SIZE, 0) && bivamolune_flush(file);
    right = close(file) == 0 && right;
    return close(opened) == 0 && right ? BIVAMOLUNE_SAVED : BIVAMOLUNE_NOT_SAVED;
}

static const struct way over = {"over", save_over, bivamolune_load_by_rename};
enum { WRITE_OVER = 3, WRITE_RENAMED = 3, WRITE_PLACE = 7 }; /* which call of each way writes the second image */

/* Killed within the write at each sector: as far as the images differ, what is left is neither. */
static void run_over(void) {
    const size_t used = bivamolune_bytes_used(saved[1]);
    unsigned others = 0, refused = 0;
    for (size_t cut = SECTOR; cut < BIVAMOLUNE_IMAGE_SIZE; cut += SECTOR) {
        int other = kill_save(&over, 1, KILL_WITHIN, WRITE_OVER, cut) == 'x';
        others += other;
        refused += other && judge(loaded) == BIVAMOLUNE_NO_IMAGE;
    }
    check(others == used / SECTOR && others > 0, "cut within the bytes used, neither the old image nor the new one");
    check(refused == others, "these are found by code 2");
}

/* The next delta of a line, delivered where it is composed: it sets the line's tag in some steps up to a value. */
static struct delta create(uint8_t *station, uint8_t line, int32_t value, uint8_t count) {
    struct delta d = {{0}, 0}, given = delta(line, 1, 1, line, value / count);
    uint8_t sequence[BIVAMOLUNE_SEQUENCE_SIZE];
    uint32_t answer;
    put_sequence(sequence, line, 0);
    for (uint8_t i = 2; i <= count; i++) given = commanding(given, 1, line, value * i / count);
    answer = bivamolune_compose(station, sizeof image, sequence, BIVAMOLUNE_LINE_SIZE, given.bytes + 40, given.size - 40, 0, 0,
                                d.bytes, sizeof d.bytes);
    d.size = bivamolune_composed_length(answer);
    answer = bivamolune_deliver(station, sizeof image, d.bytes, d.size, steps, sizeof steps);
    check(bivamolune_accepted(answer), "composed and delivered");
    return d;
}

/* Station A has C1 and its own A1, A2 and A3, and saves. B2 comes, which sets tag 11 to 1500; B1 was lost, so it is held. B2's
 * last value are the first four bytes of the third sector. A saves again. */
static void make_held(struct delta *b1, struct delta *b2) {
    static uint8_t at_b[BIVAMOLUNE_IMAGE_SIZE], at_c[BIVAMOLUNE_IMAGE_SIZE];
    memcpy(at_b, fresh, sizeof at_b);
    memcpy(at_c, fresh, sizeof at_c);
    *b1 = create(at_b, 11, 900, 1);
    *b2 = create(at_b, 11, 1500, 6);
    begin();
    deliver(create(at_c, 12, 40, 8));
    create(image, 10, 800, 8);
    create(image, 10, 1600, 8);
    create(image, 10, 700, 4);
    check(counts(4, 0, 940), "C1, A1, A2 and A3");
    memcpy(saved[0], image, sizeof image);
    check(answers(deliver(*b2), 0, 0, 0, "") && counts(4, 1, 1028), "B2 is held");
    memcpy(saved[1], image, sizeof image);
}

/* The second save is cut past its second sector: what is left is an image, and nobody had it. */
static void run_held(void) {
    struct delta b1, b2;
    const uint8_t *step = steps + 5 * BIVAMOLUNE_STEP_SIZE;
    make_held(&b1, &b2);
    check(kill_save(&over, 1, KILL_WITHIN, WRITE_OVER, 2 * SECTOR) == 'x', "neither the old image nor the new one");
    memcpy(image, loaded, sizeof image);
    check(judge(image) == BIVAMOLUNE_ACCEPTED && counts(4, 1, 1028), "and yet an image");
    check(memcmp(image + 940, b2.bytes, 84) == 0 && bivamolune_four_bytes_at(b2.bytes, 84) == 1500
        && bivamolune_four_bytes_at(image, 1024) == 0, "with a B2 that nobody sent");
    check(answers(deliver(b2), BIVAMOLUNE_CONFLICT, 0, 0, ""), "the true B2 is refused");
    check(deliver(b1) == 4 * 256 + 6 * 65536, "then B1 comes");
    check(bivamolune_step_kind(step) == BIVAMOLUNE_EXECUTE && memcmp(bivamolune_step_sequence(step), b2.bytes + 12, 12) == 0
        && bivamolune_pair_tag(step, 5) == 11 && bivamolune_pair_value(step, 5) == 0, "the wrong B2 is executed");
    check(setpoint(11) == 0, "and tag 11 is 0");
    check(answers(deliver(b2), BIVAMOLUNE_CONFLICT, 0, 0, ""), "and the true one refused for good");

    memcpy(image, saved[1], sizeof image);
    check(deliver(b1) == 4 * 256 + 6 * 65536 && setpoint(11) == 1500, "a station that was not torn");
    memcpy(image, saved[1], sizeof image);
    memcpy(image, saved[0], 2 * SECTOR);
    check(judge(image) == BIVAMOLUNE_NO_IMAGE, "the third sector without those before is no image");
    check(kill_save(&by_rename, 1, KILL_WITHIN, WRITE_RENAMED, 2 * SECTOR) == 'o', "the same cut by rename");
    check(kill_save(&in_places, 1, KILL_WITHIN, WRITE_PLACE, 2 * SECTOR) == 'o', "the same cut in places");
}

int main(void) {
    make_folder();
    make_images();
    for (unsigned before = 1; before < 3; before++) {
        run_tears(before, PREFIX, SECTORS + 1, "in places, the first sectors are there");
        run_tears(before, SUFFIX, SECTORS + 1, "in places, the last sectors are there");
        run_tears(before, CHANCE, 1000, "in places, some sectors are there");
        run_lost_pages(before);
    }
    run_damage();
    run_checksum();
    run_last_number();
    run_sizes();
    run_names(&by_rename);
    run_names(&in_places);
    run_over();
    run_held();
    return report();
}
