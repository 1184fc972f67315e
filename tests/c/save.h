/* Saving a station's image in a file, in two ways, so that a save which is killed or loses power leaves the old image or the
 * new one, whole. For a host to copy: C11 and C++17, POSIX, no allocation. Take one of the two and keep to it.
 *
 *     by rename   the image is written under another name in the same folder and flushed, then gets its name. The file is the
 *                 image and nothing else, as `print_log` reads it. Needs a file system that renames in one blow (POSIX).
 *     in places   one file with two places. A save writes the place that has not the newest image, with a number and a
 *                 checksum. For storage that cannot rename, or where files are not to be made anew.
 *
 * The folder exists and is in storage itself: who makes it flushes the one above. The file's name has 1 to
 * BIVAMOLUNE_FILE_NAME_MOST characters and no '/', is not . or .. and does not end in .new: NAME.new is the module's. One call at
 * a time saves or loads under a name, of all threads and processes, and nobody writes the image meanwhile; a process loads before
 * it saves. What a killed call leaves does not hinder the next one. An open, a read, a write or a flush that a signal interrupts
 * is made again; a close or a rename is not, and counts as failed. Where a flush fails, the system may show bytes that storage
 * has not, so they are written again. Loading flushes too: a host that begins again from an image may send what is in it.
 *
 * Include it first, or compile with -D_POSIX_C_SOURCE=200809L. */
#ifndef BIVAMOLUNE_SAVE_H
#define BIVAMOLUNE_SAVE_H

#ifndef _POSIX_C_SOURCE
#define _POSIX_C_SOURCE 200809L
#endif

#include "bivamolune.h"

#include <errno.h>
#include <fcntl.h>
#include <stdio.h>
#include <string.h>
#include <sys/types.h>
#include <unistd.h>

/* What a save answers. Send nothing of the new image unless it is the first. */
enum bivamolune_saving {
    BIVAMOLUNE_SAVED = 0,       /* every call succeeded: the new image is what loads, also after a power failure */
    BIVAMOLUNE_NOT_SAVED = 1,   /* what loaded before is what loads; of a first save nothing, in places perhaps by
                                   BIVAMOLUNE_NOT_WHOLE. Save again */
    BIVAMOLUNE_SAVE_UNSURE = 2  /* the old image (of a first save none) loads or the new one, whole, and after a power failure
                                   perhaps the other. By rename, save again; in places, start the machine anew and load, since
                                   the system may show a place that storage has not */
};

/* What loading answers. Only beside the first the buffer has an image, one that was handed to a save. Bytes that storage
 * changed later are found in places alone. */
enum bivamolune_loading {
    BIVAMOLUNE_LOADED = 0,
    BIVAMOLUNE_NEVER_SAVED = 1, /* the folder has no such file: right until a first save has answered BIVAMOLUNE_SAVED, and never
                                   again. A volume that is not there looks the same */
    BIVAMOLUNE_NOT_WHOLE = 2,   /* a file of another size, or neither place valid, as a first save that was killed leaves it.
                                   Begin with a new line, not anew with the old one */
    BIVAMOLUNE_NOT_LOADED = 3   /* a call failed: nothing is known of the image. Start the machine anew before loading again: a
                                   flush that failed may succeed when it is made once more, and nothing was written */
};

#define BIVAMOLUNE_FILE_NAME_MOST 251 /* with .new behind it, what file systems allow */

/* ---- files */

static inline int bivamolune_is_file_name(const char *name) {
    return name[0] != 0 && strlen(name) <= BIVAMOLUNE_FILE_NAME_MOST && strchr(name, '/') == NULL && strcmp(name, ".") != 0
        && strcmp(name, "..") != 0;
}

/* The folder, opened to be flushed; -1 where it cannot be, or where the file's name does not do. */
static inline int bivamolune_open_folder(const char *folder, const char *name) {
    int opened;
    if (!bivamolune_is_file_name(name)) return -1;
    do opened = open(folder, O_RDONLY | O_DIRECTORY | O_CLOEXEC);
    while (opened < 0 && errno == EINTR);
    return opened;
}

static inline int bivamolune_open_file(int folder, const char *name, int flags) {
    int opened;
    do opened = openat(folder, name, flags | O_CLOEXEC, 0644);
    while (opened < 0 && errno == EINTR);
    return opened;
}

/* Whether all that was written is in storage. */
static inline int bivamolune_flush(int file) {
    int result;
    do result = fsync(file);
    while (result < 0 && errno == EINTR);
    return result == 0;
}

/* Writes all bytes, in as many calls as it takes; whether it could. */
static inline int bivamolune_write_at(int file, const uint8_t *bytes, size_t size, off_t at) {
    while (size > 0) {
        ssize_t written = pwrite(file, bytes, size, at);
        if (written < 0 && errno == EINTR) continue;
        if (written <= 0) return 0;
        bytes += written;
        size -= (size_t)written;
        at += written;
    }
    return 1;
}

/* Reads up to the size or the file's end: how many bytes, or -1. */
static inline ssize_t bivamolune_read_at(int file, uint8_t *bytes, size_t size, off_t at) {
    size_t done = 0;
    while (done < size) {
        ssize_t got = pread(file, bytes + done, size - done, at + (off_t)done);
        if (got < 0 && errno == EINTR) continue;
        if (got < 0) return -1;
        if (got == 0) break;
        done += (size_t)got;
    }
    return (ssize_t)done;
}

/* Closes what a save or a load used, once: after an error the descriptor may be gone. */
static inline enum bivamolune_saving bivamolune_close_saved(int file, enum bivamolune_saving saving) {
    return close(file) != 0 && saving == BIVAMOLUNE_SAVED ? BIVAMOLUNE_SAVE_UNSURE : saving;
}
static inline enum bivamolune_loading bivamolune_close_loaded(int file, enum bivamolune_loading loading) {
    return close(file) != 0 ? BIVAMOLUNE_NOT_LOADED : loading;
}

/* How one of the two ways reads the image of an open file. */
typedef enum bivamolune_loading bivamolune_reader(int file, uint8_t *image);

/* Loads from a file of the folder, whose name is put into storage first. */
static inline enum bivamolune_loading bivamolune_load_from(int folder, const char *name, int flags, uint8_t *image,
                                                           bivamolune_reader *reader) {
    int file;
    if (!bivamolune_flush(folder)) return BIVAMOLUNE_NOT_LOADED;
    file = bivamolune_open_file(folder, name, flags);
    if (file < 0) return errno == ENOENT ? BIVAMOLUNE_NEVER_SAVED : BIVAMOLUNE_NOT_LOADED;
    return bivamolune_close_loaded(file, reader(file, image));
}

static inline enum bivamolune_loading bivamolune_load(const char *folder, const char *name, int flags, uint8_t *image,
                                                      bivamolune_reader *reader) {
    int opened = bivamolune_open_folder(folder, name);
    if (opened < 0) return BIVAMOLUNE_NOT_LOADED;
    return bivamolune_close_loaded(opened, bivamolune_load_from(opened, name, flags, image, reader));
}

/* ---- by rename */

/* Writes the image to a file that nothing is loaded from, over whatever a save before left there. */
static inline int bivamolune_write_file(int folder, const char *name, const uint8_t *image) {
    int file = bivamolune_open_file(folder, name, O_WRONLY | O_CREAT | O_TRUNC), right;
    if (file < 0) return 0;
    right = bivamolune_write_at(file, image, BIVAMOLUNE_IMAGE_SIZE, 0) && bivamolune_flush(file);
    return close(file) == 0 && right;
}

static inline enum bivamolune_saving bivamolune_replace(int folder, const char *name, const uint8_t *image) {
    char other[BIVAMOLUNE_FILE_NAME_MOST + sizeof ".new"];
    snprintf(other, sizeof other, "%s.new", name);
    if (!bivamolune_write_file(folder, other, image)) return BIVAMOLUNE_NOT_SAVED;
    if (renameat(folder, other, folder, name) != 0) return BIVAMOLUNE_SAVE_UNSURE;
    return bivamolune_flush(folder) ? BIVAMOLUNE_SAVED : BIVAMOLUNE_SAVE_UNSURE;
}

/* Saves an image of BIVAMOLUNE_IMAGE_SIZE bytes. */
static inline enum bivamolune_saving bivamolune_save_by_rename(const char *folder, const char *name, const uint8_t *image) {
    int opened = bivamolune_open_folder(folder, name);
    if (opened < 0) return BIVAMOLUNE_NOT_SAVED;
    return bivamolune_close_saved(opened, bivamolune_replace(opened, name, image));
}

/* Reads the image of a file that has exactly its size. */
static inline enum bivamolune_loading bivamolune_read_file(int file, uint8_t *image) {
    uint8_t more;
    ssize_t size = bivamolune_read_at(file, image, BIVAMOLUNE_IMAGE_SIZE, 0);
    ssize_t behind = size < 0 ? -1 : bivamolune_read_at(file, &more, 1, BIVAMOLUNE_IMAGE_SIZE);
    if (behind < 0) return BIVAMOLUNE_NOT_LOADED;
    return size == BIVAMOLUNE_IMAGE_SIZE && behind == 0 ? BIVAMOLUNE_LOADED : BIVAMOLUNE_NOT_WHOLE;
}

/* Loads what was saved by rename into a buffer of BIVAMOLUNE_IMAGE_SIZE bytes. */
static inline enum bivamolune_loading bivamolune_load_by_rename(const char *folder, const char *name, uint8_t *image) {
    return bivamolune_load(folder, name, O_RDONLY, image, bivamolune_read_file);
}

/* ---- in places
 *
 * A place: which save it was, from 1, in eight bytes; the image; the checksum of both in eight bytes. Numbers are big-endian.
 * The second place begins at a page of its own, so that no sector has a part of both. The greatest number is the last: a save
 * after it answers BIVAMOLUNE_NOT_SAVED. At a million saves a second that is in 584,000 years. */
#define BIVAMOLUNE_PLACE_SIZE (8 + BIVAMOLUNE_IMAGE_SIZE + 8)
#define BIVAMOLUNE_SECOND_PLACE_AT 20480

/* The newest valid place: its number, 0 where neither is valid, and where it begins. */
struct bivamolune_newest {
    uint64_t number;
    off_t at;
};

/* CRC-64/XZ. It finds every change that lies within 64 bits in a row of number and image, or in the checksum alone; a place
 * that is partly old and partly new in another way passes by a chance of one to 2^64. It does not find what someone made to
 * pass, nor a whole write that storage confirmed and dropped. A place that storage damaged later is taken for one that was torn:
 * then the image before it loads. */
static inline uint64_t bivamolune_checksum(const uint8_t *bytes, size_t size) {
    uint64_t rest = UINT64_MAX;
    for (size_t i = 0; i < size; i++) {
        rest ^= bytes[i];
        for (int bit = 0; bit < 8; bit++) rest = rest / 2 ^ (rest % 2 * 0xC96C5795D7870F42u);
    }
    return ~rest;
}

static inline void bivamolune_put_eight(uint8_t *at, uint64_t value) {
    for (size_t i = 8; i-- > 0; value /= 256) at[i] = (uint8_t)(value % 256);
}
static inline uint64_t bivamolune_get_eight(const uint8_t *at) {
    return (uint64_t)bivamolune_four_bytes_at(at, 0) * 4294967296u + bivamolune_four_bytes_at(at, 4);
}

static inline void bivamolune_put_place(uint8_t *place, uint64_t number, const uint8_t *image) {
    bivamolune_put_eight(place, number);
    memcpy(place + 8, image, BIVAMOLUNE_IMAGE_SIZE);
    bivamolune_put_eight(place + 8 + BIVAMOLUNE_IMAGE_SIZE, bivamolune_checksum(place, 8 + BIVAMOLUNE_IMAGE_SIZE));
}

/* Reads a place and its number, 0 where it is not valid. Whether it could: a place that cannot be read may be the newest. */
static inline int bivamolune_read_place(int file, off_t at, uint8_t *place, uint64_t *number) {
    ssize_t size = bivamolune_read_at(file, place, BIVAMOLUNE_PLACE_SIZE, at);
    int valid = size == BIVAMOLUNE_PLACE_SIZE
        && bivamolune_get_eight(place + 8 + BIVAMOLUNE_IMAGE_SIZE) == bivamolune_checksum(place, 8 + BIVAMOLUNE_IMAGE_SIZE);
    *number = valid ? bivamolune_get_eight(place) : 0;
    return size >= 0;
}

/* Finds the newest place, of bytes that are in storage. Whether both could be read. */
static inline int bivamolune_find_newest(int file, uint8_t *place, struct bivamolune_newest *newest) {
    uint64_t first, second;
    if (!bivamolune_flush(file) || !bivamolune_read_place(file, 0, place, &first)
        || !bivamolune_read_place(file, BIVAMOLUNE_SECOND_PLACE_AT, place, &second)) return 0;
    newest->number = first > second ? first : second;
    newest->at = first > second ? 0 : BIVAMOLUNE_SECOND_PLACE_AT;
    return 1;
}

/* Writes the other place and flushes it. Where that fails the place is made invalid again: else it could be read, though storage
 * has it not, and the next save would write over the one that storage has. */
static inline enum bivamolune_saving bivamolune_write_other(int file, const uint8_t *image) {
    static const uint8_t no_number[8] = {0};
    uint8_t place[BIVAMOLUNE_PLACE_SIZE];
    struct bivamolune_newest newest;
    off_t at;
    if (!bivamolune_find_newest(file, place, &newest) || newest.number == UINT64_MAX) return BIVAMOLUNE_NOT_SAVED;
    at = BIVAMOLUNE_SECOND_PLACE_AT - newest.at;
    bivamolune_put_place(place, newest.number + 1, image);
    if (bivamolune_write_at(file, place, BIVAMOLUNE_PLACE_SIZE, at) && bivamolune_flush(file)) return BIVAMOLUNE_SAVED;
    return bivamolune_write_at(file, no_number, sizeof no_number, at) && bivamolune_flush(file) ? BIVAMOLUNE_NOT_SAVED
                                                                                             : BIVAMOLUNE_SAVE_UNSURE;
}

/* Saves into a file of the folder, which is made where there is none; its name is put into storage first. */
static inline enum bivamolune_saving bivamolune_save_into(int folder, const char *name, const uint8_t *image) {
    int file = bivamolune_open_file(folder, name, O_RDWR | O_CREAT);
    if (file < 0) return BIVAMOLUNE_NOT_SAVED;
    return bivamolune_close_saved(file, bivamolune_flush(folder) ? bivamolune_write_other(file, image) : BIVAMOLUNE_SAVE_UNSURE);
}

/* Saves an image of BIVAMOLUNE_IMAGE_SIZE bytes. A place stands on the stack meanwhile, as it does in loading. */
static inline enum bivamolune_saving bivamolune_save_in_places(const char *folder, const char *name, const uint8_t *image) {
    int opened = bivamolune_open_folder(folder, name);
    if (opened < 0) return BIVAMOLUNE_NOT_SAVED;
    return bivamolune_close_saved(opened, bivamolune_save_into(opened, name, image));
}

/* Reads the newest place, and writes it again before it counts: a flush that failed is told once, perhaps to a save that was
 * killed in it, and then the system shows a place that storage has not. */
static inline enum bivamolune_loading bivamolune_read_newest(int file, uint8_t *image) {
    uint8_t place[BIVAMOLUNE_PLACE_SIZE];
    struct bivamolune_newest newest;
    uint64_t number;
    if (!bivamolune_find_newest(file, place, &newest)) return BIVAMOLUNE_NOT_LOADED;
    if (newest.number == 0) return BIVAMOLUNE_NOT_WHOLE;
    if (!bivamolune_read_place(file, newest.at, place, &number) || number != newest.number) return BIVAMOLUNE_NOT_LOADED;
    if (!bivamolune_write_at(file, place, BIVAMOLUNE_PLACE_SIZE, newest.at)) return BIVAMOLUNE_NOT_LOADED;
    if (!bivamolune_flush(file)) return BIVAMOLUNE_NOT_LOADED;
    memcpy(image, place + 8, BIVAMOLUNE_IMAGE_SIZE);
    return BIVAMOLUNE_LOADED;
}

/* Loads the newest image that was saved in places into a buffer of BIVAMOLUNE_IMAGE_SIZE bytes. */
static inline enum bivamolune_loading bivamolune_load_in_places(const char *folder, const char *name, uint8_t *image) {
    return bivamolune_load(folder, name, O_RDWR, image, bivamolune_read_newest);
}

#endif
