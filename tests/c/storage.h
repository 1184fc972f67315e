/* What the hosts that save share: a folder of their own, images, the two ways of save.h, and a child that saves. C++ reads it
 * as well. */
#ifndef STORAGE_H
#define STORAGE_H

#define _POSIX_C_SOURCE 200809L
#include "station.h"
#include "caught.h"
#include "save.h"

#include <sys/wait.h>

typedef enum bivamolune_saving saver(const char *folder, const char *name, const uint8_t *image);
typedef enum bivamolune_loading loader(const char *folder, const char *name, uint8_t *image);

struct way {
    const char *name;
    saver *save;
    loader *load;
};

static const struct way by_rename = {"by rename", bivamolune_save_by_rename, bivamolune_load_by_rename},
                        in_places = {"in places", bivamolune_save_in_places, bivamolune_load_in_places};

enum { KILLED = 100 };

static char folder[200], path[220], left_over[220];
static uint8_t saved[3][BIVAMOLUNE_IMAGE_SIZE], fresh[BIVAMOLUNE_IMAGE_SIZE], loaded[BIVAMOLUNE_IMAGE_SIZE];

static inline void stop(const char *why) {
    printf("cannot test: %s\n", why);
    exit(2);
}

/* ---- files and images */
static inline void remove_files(void) {
    unlink(path);
    unlink(left_over);
}

static inline void remove_folder(void) {
    remove_files();
    rmdir(folder);
}

static inline void make_folder(void) {
    const char *base = getenv("TMPDIR");
    snprintf(folder, sizeof folder, "%s/saving-XXXXXX", base == NULL ? "/tmp" : base);
    if (mkdtemp(folder) == NULL || atexit(remove_folder) != 0) stop("no folder");
    snprintf(path, sizeof path, "%s/station", folder);
    snprintf(left_over, sizeof left_over, "%s/station.new", folder);
}

/* The file's first bytes; those that it has not are zero. */
static inline size_t get_file(uint8_t *bytes, size_t size) {
    FILE *file = fopen(path, "rb");
    size_t got;
    if (file == NULL) stop("no file");
    memset(bytes, 0, size);
    got = fread(bytes, 1, size, file);
    fclose(file);
    return got;
}

static inline void put_file(const uint8_t *bytes, size_t size) {
    FILE *file;
    unlink(path);
    file = fopen(path, "wb");
    if (file == NULL || fwrite(bytes, 1, size, file) != size || fclose(file) != 0) stop("no file written");
}

/* Three images, each with a delta more than the one before. Each delta comes first in the log, so that all others move. */
static inline void make_images(void) {
    begin();
    memcpy(fresh, image, sizeof image);
    for (uint8_t i = 0; i < BIVAMOLUNE_DELTAS_MOST; i++) {
        struct delta d = delta((uint8_t)(BIVAMOLUNE_DELTAS_MOST - i), 1, 1, i, 1000 * i);
        for (uint8_t tag = 0; tag < 7; tag++) d = commanding(d, 2, tag, i);
        if (!bivamolune_accepted(deliver(d))) stop("an image to save");
        if (i >= BIVAMOLUNE_DELTAS_MOST - 3) memcpy(saved[i + 3 - BIVAMOLUNE_DELTAS_MOST], image, sizeof image);
    }
}

/* ---- saving and loading */
static inline int is_loaded(const uint8_t *expected) { return memcmp(loaded, expected, sizeof loaded) == 0; }

/* So many images were saved, one after another. */
static inline void prepare(const struct way *way, unsigned before) {
    remove_files();
    clear_plan();
    for (unsigned i = 0; i < before; i++)
        if (way->save(folder, "station", saved[i]) != BIVAMOLUNE_SAVED) stop("the images before were not saved");
    clear_plan();
}

/* What loads once the next image was saved, or not: the new image, the old one, another; no file, one that is not whole, or a
 * failure. */
static inline char what_loads(const struct way *way, unsigned before) {
    enum bivamolune_loading answer;
    clear_plan();
    memset(loaded, 0xEE, sizeof loaded);
    answer = way->load(folder, "station", loaded);
    if (answer != BIVAMOLUNE_LOADED) return "?-wf"[answer];
    if (is_loaded(saved[before])) return 'n';
    return before > 0 && is_loaded(saved[before - 1]) ? 'o' : 'x';
}

static inline int saves_again(const struct way *way) {
    clear_plan();
    return way->save(folder, "station", fresh) == BIVAMOLUNE_SAVED && way->load(folder, "station", loaded) == BIVAMOLUNE_LOADED
        && is_loaded(fresh);
}

typedef int act(const struct way *way, const uint8_t *bytes);
static inline int save_once(const struct way *way, const uint8_t *bytes) { return (int)way->save(folder, "station", bytes); }

/* The answer of a child that saves or loads as planned, or that it was killed. */
static inline int in_child(act *act, const struct way *way, const uint8_t *bytes) {
    int status;
    pid_t child;
    fflush(stdout);
    child = fork();
    if (child == 0) {
        flushing = 1;
        _exit(act(way, bytes));
    }
    if (child < 0 || waitpid(child, &status, 0) != child) stop("no child");
    return WIFSIGNALED(status) && WTERMSIG(status) == SIGKILL ? KILLED : WEXITSTATUS(status);
}

/* Kills the save of the next image as planned: what then loads, or 0 where the save made no such call. */
static inline char kill_save(const struct way *way, unsigned before, enum deed deed, unsigned at, size_t cut) {
    prepare(way, before);
    begin_plan(deed, at, cut, 0);
    return in_child(save_once, way, saved[before]) == KILLED ? what_loads(way, before) : 0;
}

#endif
