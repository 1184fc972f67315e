/* The system calls of save.h, caught: written down, and at one of them the process is killed or the call fails, as planned.
 * Include it before save.h, which then makes these. C++ reads it as well. */
#ifndef CAUGHT_H
#define CAUGHT_H

#include <errno.h>
#include <fcntl.h>
#include <signal.h>
#include <stdio.h>
#include <string.h>
#include <sys/types.h>
#include <unistd.h>

enum { SECTOR = 512 };

/* What is done at the planned call: nothing; a kill before it, after it, or within a write; a failure of it, or of it and all
 * that follow; one byte written or read of those asked for. */
enum deed { LET, KILL_BEFORE, KILL_AFTER, KILL_WITHIN, FAIL, FAIL_ON, SHORTEN };
static const char *const deed_names[] = {"nothing at", "a kill before", "a kill after", "a kill within", "a failure of",
                                         "failures from", "one byte of"};

struct plan {
    enum deed deed;
    unsigned at;  /* the call, counted from 1 */
    size_t cut;   /* how much is written before a kill within */
    int error;    /* of a failure */
};

static struct plan plan;
static unsigned calls;
static char record[1024];
static int folder_opened;
static int flushing; /* else a flush is written down and not made: the system shows the same bytes, and sooner */

static inline void begin_plan(enum deed deed, unsigned at, size_t cut, int error) {
    struct plan p = {deed, at, cut, error};
    plan = p;
    calls = 0;
    record[0] = 0;
}

static inline void clear_plan(void) { begin_plan(LET, 0, 0, 0); }

static inline int is_planned(enum deed deed) { return plan.deed == deed && calls == plan.at; }

static inline void die(void) { kill(getpid(), SIGKILL); }

/* A call begins: whether it is to fail. */
static inline int fails(const char *call, const char *what) {
    size_t length = strlen(record);
    snprintf(record + length, sizeof record - length, "%s%s %s", length == 0 ? "" : ", ", call, what);
    calls++;
    if (is_planned(KILL_BEFORE)) die();
    errno = plan.error;
    return is_planned(FAIL) || (plan.deed == FAIL_ON && calls >= plan.at);
}

/* A call has been made; its result. */
static inline int made(int result) {
    if (is_planned(KILL_AFTER)) die();
    return result;
}

static inline const char *name_opened(int file) { return file == folder_opened ? "folder" : "file"; }

static inline int catch_open(const char *path, int flags) {
    if (fails("open", "folder")) return -1;
    folder_opened = open(path, flags);
    return made(folder_opened);
}

static inline int catch_openat(int folder, const char *name, int flags, mode_t mode) {
    if (fails("openat", name)) return -1;
    return made(openat(folder, name, flags, mode));
}

static inline int catch_fsync(int file) {
    if (fails("fsync", name_opened(file))) return -1;
    return made(flushing ? fsync(file) : 0);
}

/* The descriptor is gone also where it fails, as on Linux. */
static inline int catch_close(int file) {
    int failed_so = fails("close", name_opened(file)), result = close(file);
    if (failed_so) errno = plan.error;
    return made(failed_so ? -1 : result);
}

static inline int catch_renameat(int from_folder, const char *from, int to_folder, const char *to) {
    if (fails("renameat to", to)) return -1;
    return made(renameat(from_folder, from, to_folder, to));
}

/* One that fails has written the first sector of those asked for. */
static inline ssize_t catch_pwrite(int file, const void *bytes, size_t size, off_t at) {
    ssize_t written;
    if (fails("pwrite", name_opened(file))) {
        if (size > SECTOR) written = pwrite(file, bytes, SECTOR, at);
        errno = plan.error;
        return -1;
    }
    if (is_planned(KILL_WITHIN) && plan.cut < size) {
        written = pwrite(file, bytes, plan.cut, at);
        die();
    }
    written = pwrite(file, bytes, is_planned(SHORTEN) ? 1 : size, at);
    return made((int)written);
}

static inline ssize_t catch_pread(int file, void *bytes, size_t size, off_t at) {
    if (fails("pread", name_opened(file))) return -1;
    return made((int)pread(file, bytes, is_planned(SHORTEN) ? 1 : size, at));
}

#define open catch_open
#define openat catch_openat
#define fsync catch_fsync
#define close catch_close
#define renameat catch_renameat
#define pwrite catch_pwrite
#define pread catch_pread

#endif
