/* Saves of save.h that are killed and that fail, in a folder of their own on a real file system. C++ reads it as well.
 *
 * A kill is at every system call: before it, after it, and within each write at every 512 bytes. A killed process loses nothing
 * that it had written, so kills show which names and bytes are there, and in which order. A flush cannot be seen by a kill; the
 * order of the calls is looked at instead. torn.c has what a power failure adds. */
#include "storage.h"

/* ---- kills */

/* How often the new image loaded after a kill, and how often what was there before. */
struct seen {
    unsigned changed, kept;
};

/* Whether what loads is what was there before: the old image, and where there was none no file, in places perhaps one that is
 * not whole. */
static int is_kept(const struct way *way, unsigned before, char found) {
    if (before > 0) return found == 'o';
    return found == '-' || (way == &in_places && found == 'w');
}

/* Kills a save: whole or not at all, and the next save does not mind what it left. Of a first save there may be nothing; then
 * nothing was sent either. Whether it was killed. */
static unsigned check_kill(const struct way *way, unsigned before, enum deed deed, unsigned at, size_t cut, struct seen *seen) {
    char what[100], found = kill_save(way, before, deed, at, cut);
    if (found == 0) return 0;
    seen->changed += found == 'n';
    seen->kept += (unsigned)is_kept(way, before, found);
    snprintf(what, sizeof what, "%s, save %u, %s call %u, %zu bytes", way->name, before + 1, deed_names[deed], at, cut);
    check((found == 'n' || is_kept(way, before, found)) && saves_again(way), what);
    return 1;
}

/* Kills a save at every call that it makes. */
static struct seen kill_everywhere(const struct way *way, unsigned before, unsigned all) {
    struct seen seen = {0, 0};
    unsigned killed = 0;
    for (unsigned at = 1; at <= all; at++) {
        killed += check_kill(way, before, KILL_BEFORE, at, 0, &seen);
        for (size_t cut = SECTOR; check_kill(way, before, KILL_WITHIN, at, cut, &seen); cut += SECTOR) continue;
        killed += check_kill(way, before, KILL_AFTER, at, 0, &seen);
    }
    check(killed == 2 * all && !check_kill(way, before, KILL_BEFORE, all + 1, 0, &seen), "killed before and after each call");
    return seen;
}

static void run_kills(const struct way *way) {
    for (unsigned before = 0; before < 3; before++) {
        struct seen seen;
        unsigned all;
        prepare(way, before);
        check(way->save(folder, "station", saved[before]) == BIVAMOLUNE_SAVED, "saved");
        all = calls;
        seen = kill_everywhere(way, before, all);
        check(kill_save(way, before, KILL_AFTER, all, 0) == 'n', "killed as it answers, the new one");
        check(seen.changed > 0 && seen.kept > BIVAMOLUNE_IMAGE_SIZE / SECTOR, "kills before and after the image was there");
    }
}

static int load_once(const struct way *way, const uint8_t *bytes) {
    (void)bytes;
    return (int)way->load(folder, "station", loaded);
}

/* Kills a load: the newest image loads afterwards. Whether it was killed. */
static int check_killed_load(const struct way *way, enum deed deed, unsigned at, size_t cut) {
    char what[100];
    prepare(way, 2);
    begin_plan(deed, at, cut, 0);
    if (in_child(load_once, way, NULL) != KILLED) return 0;
    snprintf(what, sizeof what, "%s, loading, %s call %u, %zu bytes", way->name, deed_names[deed], at, cut);
    check(what_loads(way, 1) == 'n' && saves_again(way), what);
    return 1;
}

static void run_load_kills(const struct way *way) {
    unsigned all;
    prepare(way, 2);
    check(way->load(folder, "station", loaded) == BIVAMOLUNE_LOADED, "loaded");
    all = calls;
    for (unsigned at = 1; at <= all; at++) {
        check_killed_load(way, KILL_BEFORE, at, 0);
        for (size_t cut = SECTOR; check_killed_load(way, KILL_WITHIN, at, cut); cut += SECTOR) continue;
    }
    check(!check_killed_load(way, KILL_BEFORE, all + 1, 0), "these are all calls of loading");
}

/* ---- the order of the calls */

/* The calls that were made since the plan began. */
static void check_calls(const char *expected, const char *what) {
    check(strcmp(record, expected) == 0, what);
    clear_plan();
}

static void run_order(void) {
    flushing = 1;
    prepare(&by_rename, 1);
    check(bivamolune_save_by_rename(folder, "station", saved[1]) == BIVAMOLUNE_SAVED, "saved by rename");
    check_calls("open folder, openat station.new, pwrite file, fsync file, close file, renameat to station, fsync folder, "
        "close folder", "flushed, renamed, and the folder flushed");
    check(bivamolune_load_by_rename(folder, "station", loaded) == BIVAMOLUNE_LOADED, "loaded by rename");
    check_calls("open folder, fsync folder, openat station, pread file, pread file, close file, close folder",
        "the folder is flushed before what it names is loaded");

    prepare(&in_places, 2);
    check(bivamolune_save_in_places(folder, "station", saved[2]) == BIVAMOLUNE_SAVED, "saved in places");
    check_calls("open folder, openat station, fsync folder, fsync file, pread file, pread file, pwrite file, fsync file, "
        "close file, close folder", "what is there is flushed, then the other place");
    check(bivamolune_load_in_places(folder, "station", loaded) == BIVAMOLUNE_LOADED, "loaded from places");
    check_calls("open folder, fsync folder, openat station, fsync file, pread file, pread file, pread file, pwrite file, "
        "fsync file, close file, close folder", "folder and file are flushed, the newest is loaded and written again");
    begin_plan(FAIL, 8, 0, EIO);
    check(bivamolune_save_in_places(folder, "station", saved[0]) == BIVAMOLUNE_NOT_SAVED, "a place whose flush fails");
    check_calls("open folder, openat station, fsync folder, fsync file, pread file, pread file, pwrite file, fsync file, "
        "pwrite file, fsync file, close file, close folder", "the place is made invalid and flushed");
    flushing = 0;
}

/* ---- calls that fail */

/* So many images were saved before. For each call in turn, if it fails: the answer (S saved, N not saved, U unsure; a dot where
 * it reads and writes nothing that could be short), and what then loads. */
struct failing {
    const struct way *way;
    unsigned before;
    enum deed deed;
    int error;
    const char *answers, *loads;
};

static const struct failing failing[] = {
    {&by_rename, 0, FAIL, EIO, "NNNNNUUU", "------nn"},
    {&by_rename, 2, FAIL, EIO, "NNNNNUUU", "oooooonn"},
    {&by_rename, 2, FAIL, EINTR, "SSSSNUSU", "nnnnoonn"},
    {&by_rename, 2, FAIL_ON, EIO, "NNNNNUUU", "oooooonn"},
    {&by_rename, 2, SHORTEN, 0, "..S.....", "..n....."},
    {&in_places, 0, FAIL, EIO, "NNUNNNNNUU", "--wwwwwwnn"},
    {&in_places, 2, FAIL, EIO, "NNUNNNNNUU", "oooooooonn"},
    {&in_places, 2, FAIL, EINTR, "SSSSSSSSUU", "nnnnnnnnnn"},
    {&in_places, 2, FAIL_ON, EIO, "NNUNNNUUUU", "ooooooonnn"},
    {&in_places, 2, SHORTEN, 0, "....SSS...", "....nnn..."},
};

static void run_failures(void) {
    for (size_t row = 0; row < sizeof failing / sizeof failing[0]; row++) {
        const struct failing *f = &failing[row];
        unsigned all = (unsigned)strlen(f->answers);
        for (unsigned at = 1; at <= all; at++) {
            char what[100];
            enum bivamolune_saving answer;
            if (f->answers[at - 1] == '.') continue;
            snprintf(what, sizeof what, "%s, %s call %u, error %d, save %u", f->way->name, deed_names[f->deed], at, f->error,
                f->before + 1);
            prepare(f->way, f->before);
            begin_plan(f->deed, at, 0, f->error);
            answer = f->way->save(folder, "station", saved[f->before]);
            check("SNU"[answer] == f->answers[at - 1] && what_loads(f->way, f->before) == f->loads[at - 1]
                && saves_again(f->way), what);
        }
        prepare(f->way, f->before);
        begin_plan(f->deed, all + 1, 0, f->error);
        check(f->way->save(folder, "station", saved[f->before]) == BIVAMOLUNE_SAVED && calls == all, "these are all calls");
    }
}

/* The same of loading: L loaded, F not loaded. */
static const struct failing failing_to_load[] = {
    {&by_rename, 2, FAIL, EIO, "FFFFFFF", ""},
    {&by_rename, 2, FAIL, EINTR, "LLLLLFF", ""},
    {&by_rename, 2, SHORTEN, 0, "...L...", ""},
    {&in_places, 2, FAIL, EIO, "FFFFFFFFFFF", ""},
    {&in_places, 2, FAIL, EINTR, "LLLLLLLLLFF", ""},
    {&in_places, 2, SHORTEN, 0, "....LLLL...", ""},
};

static void run_load_failures(void) {
    for (size_t row = 0; row < sizeof failing_to_load / sizeof failing_to_load[0]; row++) {
        const struct failing *f = &failing_to_load[row];
        unsigned all = (unsigned)strlen(f->answers);
        prepare(f->way, f->before);
        for (unsigned at = 1; at <= all + 1; at++) {
            char what[100];
            enum bivamolune_loading answer, expected = f->answers[at - 1] == 'F' ? BIVAMOLUNE_NOT_LOADED : BIVAMOLUNE_LOADED;
            if (f->answers[at - 1] == '.') continue;
            snprintf(what, sizeof what, "%s, loading, %s call %u, error %d", f->way->name, deed_names[f->deed], at, f->error);
            begin_plan(f->deed, at, 0, f->error);
            memset(loaded, 0xEE, sizeof loaded);
            answer = f->way->load(folder, "station", loaded);
            check(answer == expected && (answer != BIVAMOLUNE_LOADED || is_loaded(saved[f->before - 1])), what);
        }
        check(calls == all, "these are all calls of loading");
    }
}

int main(void) {
    make_folder();
    make_images();
    run_kills(&by_rename);
    run_kills(&in_places);
    run_load_kills(&by_rename);
    run_load_kills(&in_places);
    run_order();
    run_failures();
    run_load_failures();
    remove_files();
    check(rmdir(folder) == 0, "no other file is left");
    return report();
}
