/* One log for all stations of a furnace: the calls that a station's host makes. For C11 and C++17.
 *
 * Link with libbivamolune.a (`.ci/archive` makes it). The calls keep no state and allocate nothing; all state is in the
 * image, a buffer of the caller's. Every call is defined for every size and every content of its buffers.
 *
 * What is promised
 * - The lowest code that applies is answered. A refused call changes no byte of any buffer, and its counts, length, offset
 *   and value are 0.
 * - An accepted call writes what the paper says and leaves every other byte. Compose, setpoint and log message only read the
 *   image. A delivery at or below a floor and a purge of no messages leave every byte as it was; the former writes no step either.
 * - A composed message that is delivered to the image it was composed on, if that holds fewer than 64 deltas, is accepted
 *   with no undo, and its execution is the first step.
 * - The pairs of a delivery's steps, each of which sets its tag to its value, lead in turn from the image's 64 values before
 *   the call to those after it. Hardware that is fed by the pairs shows the image's values after each call. A purge leaves the
 *   values as they are.
 * - A buffer may start at any address. A call takes less than BIVAMOLUNE_STACK bytes of stack (measured, not proved).
 *
 * What the host owes
 * - A pointer has as many readable (and, where it is not const, writable) bytes behind it as the size after it says. With
 *   size 0 it may be NULL.
 * - The buffers of a call do not overlap.
 * - One call at a time on an image, and nobody else writes the image meanwhile. Calls on different images are free.
 * - A host writes no byte of an image itself. Floors and base values are made by bivamolune_purge and by nobody else. Those of a
 *   host's own making pass code 2, which asks only whether they are in order: they swallow deltas with answer 0, and part the
 *   station from the others for good.
 * - An answer is several numbers in one. `if (bivamolune_deliver(..) != 0)` takes most successes for failures: ask
 *   bivamolune_accepted(answer), or bivamolune_code(answer). Those of setpoint and log message have 64 bits and functions of
 *   their own; in a variable of 32 bits nothing but the code is left of them.
 * - Hardware that is fed by the pairs begins with the image's values, all zero after empty. It gets the pairs of every delivery,
 *   the steps in order. A host that begins again from a saved image, or from a copy of another station's, sets its hardware to
 *   that image's values first.
 * - What log message hands back is a part of the image itself. It is the message until the image is written again.
 * - An image is not written in one blow, neither in memory nor in storage. What an interrupted call left may be no image
 *   (code 2). What an interrupted save left, partly new and partly old, may be an image with a delta that nobody sent, and code
 *   2 does not find it: a held delta is not run, so nothing else in the image depends on its bytes. The true delta is then
 *   refused (code 7), and the wrong one is executed when its need comes. So keep the last image until the next one is in
 *   storage whole: write that one under another name, flush it, rename it, then flush the folder; or keep two places, each with a
 *   number and a checksum, write the one that is not the newest, and flush it. Only then is it saved. tests/c/save.h has both
 *   ways, to be copied.
 * - A delta of the station's own is composed, delivered to the station's own image, the image is saved, and only then is the
 *   message sent. A station that sends first and restarts from an image of before would use a sequence again for another
 *   delta, and the stations that got the first one refuse the second (code 7) for good.
 * - A line belongs to one station. A station that is replaced, cloned or restored from an old backup gets a new line; with the
 *   old one it would use sequences again.
 * - The transport checks that messages come as they were sent. A changed bit can make another right delta, under a sequence
 *   that is in use or a new one, and no code finds that.
 * - An image that a library of before 0.5.0 wrote, with a header of 16 bytes, is no image now (code 2). A host that has one
 *   delivers its messages to an empty image, those of the log in order and then the held ones, saves that one and goes on from
 *   it; the old one is kept until then. tests/c/carry.h has this, to be copied; it refuses what was no image before, and carries
 *   what code 2 did not find then. A host that begins anew on its old line instead uses sequences again.
 * - Code 7 of a delivery is never retried: two deltas have one sequence, since one of these duties was not kept. Each station
 *   has the one that came to it first, and those that differ in it differ for good. Keep both messages, the refused one and
 *   the one in the image, for a human to decide, with the names of the stations that have each. A station with the wrong one
 *   begins again with a new line, from a copy of the image of a station with the right one; where nobody has purged, also with
 *   empty and every delta of such a station. A second delta under a purged sequence is not found: 7 is not looked for there.
 * - Code 8 of a delivery: a station keeps 64 deltas and no more, and one that is full differs from those that accepted the delta.
 *   A purge makes room, and the message may be delivered again; but it was still on its way when the station purged (see below):
 *   if it belongs before what was purged, the station differs for good. The safe way is a copy of the image of a station that
 *   accepted it, and a new line. So purge in good time, and share the free places out: 64 less the log count and held count of the
 *   fullest station after a purge. A station that has composed its share since then composes no more and tells the operators.
 *   Compose does not ask for room; a message that the station's own image refuses is not sent.
 *
 * Floors
 * - A floor is a line and the highest number of it that was purged. An image has at most 32, and beside them the base values,
 *   from which its log is run, and the greatest effective block and group of what was purged.
 * - A delta at or below the floor of its line is purged: it ran before all that the image has. One that needs it does not wait
 *   for it, and no effective block counts below the greatest purged one.
 * - bivamolune_purge makes floors and raises them. No call lowers one or takes one away but empty, which writes an image without
 *   any; deliver keeps those that are there. Every call on an image takes one with floors.
 *
 * Before a host purges
 * - Purged deltas keep their place ahead of all that comes later, whatever its block, priority, group and sequence. A delta that
 *   is still on its way, or that is yet to be composed at a station which has not all that is purged, may belong before it. A
 *   station that has purged then runs it behind, one that has not runs it before, and no code tells: the two differ for good.
 * - The library cannot see what is on its way. What is safe comes with reports from the stations, which these calls do not have
 *   yet. Until then purge only what every station has executed and saved, and at a time when every station is up, nothing is on
 *   its way to any of them and nothing is being composed. A station that goes down before it saved begins again without the delta,
 *   and nobody can send it what all others have purged; one that is down or cut off may have deltas that nobody else has. A delta
 *   that was refused by 8 is on its way, and one that some station holds waits for another that is (but for a ring, which is held
 *   for good).
 * - Let the last delta of the log stand, so that k is below the log count, unless all stations purge the same before any of them
 *   composes again. What is composed names deltas of the log alone. On a log that was purged whole, a delta composed without
 *   priority names nothing: a station that has not purged runs it before every delta with a block that it still has, and the
 *   station that purged runs it behind them.
 * - Stations that have purged different numbers of deltas have different images, also where all is well. Images are equal where
 *   floors, base values, purged block and group agree and the remaining deltas are the same.
 * - Purged deltas cannot be undone, and log message no longer shows them. Who wants them later reads or saves them before.
 * - What all stations have purged, none can send any more. So a station that joins, or comes back from a backup that lacks
 *   what the others have purged, begins from a copy of another one's image, with a new line. From empty it would run what it gets from zeros, and hold for good what
 *   needs a purged delta.
 * - A line that has a floor keeps it, and a line has 65,535 numbers. So 32 lines can be purged in all, those of stations that are
 *   gone among them. From the first delta of a 33rd line on nothing can be purged any more (code 16), neither of it nor behind it:
 *   the image fills up, and answers 8. So new lines are given sparingly.
 * - A purge gives no step, and hardware that plays steps has nothing to do. Whoever keeps the log that the steps were played on
 *   takes the first k off it.
 * - After a purge the image is saved as after a delivery (tests/c/save.h). A host that goes down before begins again as if it had
 *   not purged.
 */
#ifndef BIVAMOLUNE_H
#define BIVAMOLUNE_H

#include <stddef.h>
#include <stdint.h>

#ifdef __cplusplus
extern "C" {
#endif

/* The version of this header and of the archive that it goes with. */
#define BIVAMOLUNE_VERSION_MAJOR 0
#define BIVAMOLUNE_VERSION_MINOR 6
#define BIVAMOLUNE_VERSION_PATCH 0
#define BIVAMOLUNE_VERSION "0.6.0"

/* Sizes in bytes. */
#define BIVAMOLUNE_IMAGE_SIZE 16384  /* an image, exactly */
#define BIVAMOLUNE_STEP_ROOM 10160   /* a step buffer, at least: 127 steps */
#define BIVAMOLUNE_MESSAGE_ROOM 200  /* compose's message buffer, at least */
#define BIVAMOLUNE_STEP_SIZE 80      /* a step: kind, count of pairs, sequence, eight pairs */
#define BIVAMOLUNE_PAIR_SIZE 8       /* a pair of a step: tag and value, four bytes each */
#define BIVAMOLUNE_SEQUENCE_SIZE 12  /* a sequence: endpoint UID 6, creator identifier 4, number 2 */
#define BIVAMOLUNE_LINE_SIZE 10      /* a line: a sequence without its number */
#define BIVAMOLUNE_STACK 65536       /* more than any call takes of the stack */

/* An image: a header of 32 bytes, the 64 values, the 64 base values, F floors, then the messages of the log in order, the held
 * ones by ascending sequence, and zeros to the end. In the header, with big-endian numbers as everywhere:
 *
 *     0-1, 2-3      log count, held count
 *     4-5, 6-7      where the values begin, 32; where the messages begin, 544 + 12 F
 *     8-9           bytes used: where the messages end. 544 without floors and deltas
 *     10-11         F, the number of floors
 *     12-13, 14-15  where the floors begin, 544; where the base values begin, 288. So also if F is 0
 *     16-19, 20-23  the greatest purged effective block; the greatest purged group
 *     24-31         zero
 *
 * A floor is a line and its highest purged number, at least 1; lines are strictly ascending. */
#define BIVAMOLUNE_HEADER_SIZE 32        /* bytes of an image's header */
#define BIVAMOLUNE_VALUES_AT 32          /* where the 64 values of an image begin, four bytes each */
#define BIVAMOLUNE_BASE_VALUES_AT 288    /* where the 64 base values begin, four bytes each */
#define BIVAMOLUNE_FLOORS_AT 544         /* where the floors begin, or without floors the messages */
#define BIVAMOLUNE_FLOOR_SIZE 12         /* bytes: a line and a number, as a sequence has them */
#define BIVAMOLUNE_FLOORS_MOST 32

/* A message has 40 bytes, 12 for each dependency and 8 for each command. */
#define BIVAMOLUNE_MESSAGE_LEAST 48      /* bytes: no dependency, one command */
#define BIVAMOLUNE_MESSAGE_MOST 200      /* bytes: eight of each */
#define BIVAMOLUNE_DEPENDENCIES_MOST 8
#define BIVAMOLUNE_COMMANDS_MOST 8       /* and at least one */
#define BIVAMOLUNE_COMMAND_SIZE 8        /* bytes: operation, tag, two zeros, value */
#define BIVAMOLUNE_NUMBER_MOST 2147483647 /* of a group, a block, a priority */

/* Sequences as text: 24 characters of 0-9 and A-F each, with a comma between. */
#define BIVAMOLUNE_SEQUENCES_MOST 8      /* of one text, and at least one */
#define BIVAMOLUNE_SEQUENCE_TEXT_SIZE 24 /* characters of one sequence */
#define BIVAMOLUNE_SEQUENCES_ROOM 96     /* bytes: the reader's sequence buffer, at least */
#define BIVAMOLUNE_TEXT_ROOM 199         /* bytes: the writer's text buffer, at least; no NUL is written */

/* A station. */
#define BIVAMOLUNE_DELTAS_MOST 64        /* of log and held ones together */
#define BIVAMOLUNE_STEPS_MOST 127        /* of one delivery: 63 undos and 64 executions */
#define BIVAMOLUNE_TAGS 64               /* setpoints, tags 0 to 63 */
#define BIVAMOLUNE_VALUE_LEAST (-1000000)
#define BIVAMOLUNE_VALUE_MOST 1000000

/* A step. Its first byte is the kind, one of the two. It has a pair for each command of the delta, also for one that changes
 * nothing: an execution has the value after each command, an undo the value that each command had found, from the last
 * command to the first. Unused pairs are zero. */
#define BIVAMOLUNE_UNDO 1
#define BIVAMOLUNE_EXECUTE 2
#define BIVAMOLUNE_STEP_COUNT_AT 1       /* where in a step the count of pairs stands, three bytes */
#define BIVAMOLUNE_STEP_SEQUENCE_AT 4    /* where the delta's sequence stands */
#define BIVAMOLUNE_STEP_PAIRS_AT 16      /* where the pairs begin */
#define BIVAMOLUNE_PAIRS_MOST 8          /* of a step, and at least one */

/* Codes. */
enum bivamolune_result {
    BIVAMOLUNE_ACCEPTED = 0,
    BIVAMOLUNE_WRONG_SIZE = 1,         /* an image, a step buffer, compose's message buffer or a line of wrong size; a buffer
                                          for sequences under 96 bytes, or for their text under 199 */
    BIVAMOLUNE_NO_IMAGE = 2,           /* the buffer is no image of a set of at most 64 right deltas: also if it has over 32
                                          floors, floors out of order or two of a line, one of number 0000, a message at or
                                          below a floor, a base value, purged block or purged group out of range, or without
                                          a floor one of these that is not zero */
    BIVAMOLUNE_WRONG_LAYOUT = 3,       /* kind, byte 1, counts, length, offsets or zeros of the message; compose: commands
                                          that are not 8 to 64 bytes by eights */
    BIVAMOLUNE_WRONG_NUMBER = 4,       /* a sequence number 0000 */
    BIVAMOLUNE_WRONG_DEPENDENCIES = 5, /* dependencies out of order, equal, own or predecessor */
    BIVAMOLUNE_WRONG_CONTENT = 6,      /* group, block, priority, compose's flag, operation, tag, zeros or value */
    BIVAMOLUNE_CONFLICT = 7,           /* the sequence is present with other bytes; not looked for at or below a floor */
    BIVAMOLUNE_FULL = 8,               /* 64 deltas are present and this one is new; not looked for at or below a floor */
    BIVAMOLUNE_HELD_LINE = 9,          /* compose: the line has a held delta */
    BIVAMOLUNE_PAST_LIMIT = 10,        /* compose: number, group or block would pass its limit; so a line with floor FFFF has
                                          no next number */
    BIVAMOLUNE_MANY_DEPENDENCIES = 11, /* compose: over eight dependencies */
    BIVAMOLUNE_NOT_THERE = 12,         /* a place that the log has not, or a tag above 63 */
    BIVAMOLUNE_WRONG_FORM = 13,        /* a wrong character, length or comma of a text; sequences to write that are not 12 to
                                          96 bytes by twelves */
    BIVAMOLUNE_ZERO_NUMBER = 14,       /* sequences read or written: a number 0000 */
    BIVAMOLUNE_PAST_LOG = 15,          /* purge: more messages than the log has */
    BIVAMOLUNE_MANY_FLOORS = 16        /* purge: over 32 floors would result */
};

/* A code in words, for a log file. */
static inline const char *bivamolune_code_name(uint32_t code) {
    switch (code) {
    case BIVAMOLUNE_ACCEPTED: return "accepted";
    case BIVAMOLUNE_WRONG_SIZE: return "wrong size";
    case BIVAMOLUNE_NO_IMAGE: return "no image";
    case BIVAMOLUNE_WRONG_LAYOUT: return "wrong layout";
    case BIVAMOLUNE_WRONG_NUMBER: return "wrong number";
    case BIVAMOLUNE_WRONG_DEPENDENCIES: return "wrong dependencies";
    case BIVAMOLUNE_WRONG_CONTENT: return "wrong content";
    case BIVAMOLUNE_CONFLICT: return "conflict";
    case BIVAMOLUNE_FULL: return "full";
    case BIVAMOLUNE_HELD_LINE: return "held line";
    case BIVAMOLUNE_PAST_LIMIT: return "past limit";
    case BIVAMOLUNE_MANY_DEPENDENCIES: return "many dependencies";
    case BIVAMOLUNE_NOT_THERE: return "not there";
    case BIVAMOLUNE_WRONG_FORM: return "wrong form";
    case BIVAMOLUNE_ZERO_NUMBER: return "zero number";
    case BIVAMOLUNE_PAST_LOG: return "past log";
    case BIVAMOLUNE_MANY_FLOORS: return "many floors";
    default: return "no code";
    }
}

/* Writes the image of no deltas. Answers the code: 0 or 1. */
uint32_t bivamolune_empty(uint8_t *image, size_t image_size);

/* Delivers a message to a station. On acceptance the image is the new one, and the steps stand at the front of the step
 * buffer: first the undos, then the executions, each with the values that its commands restore or give. The bytes behind
 * them are unchanged. A delta that is there already with equal bytes is accepted with no step. So is one at or below the floor
 * of its line, whatever its bytes if none of codes 1 to 6 applies, and however many deltas are there: nothing is written, and
 * it joins nothing. Take the answer and the steps apart with the functions below. */
uint32_t bivamolune_deliver(uint8_t *image, size_t image_size,
                            const uint8_t *message, size_t message_size,
                            uint8_t *steps, size_t steps_size);

/* Composes the next delta of a line on top of the log, and writes it to the front of the message buffer; the bytes behind
 * it are unchanged. The commands are handed over end to end. The flag is 0, then the priority is 0 as well, or 1 with a
 * priority. The number is one more than the line's greatest in the log or its floor, whichever is the higher. What was purged
 * counts for group and block as if the log had it at its front, but is never a dependency; on a log that purging emptied, the
 * group is the greatest purged one plus one, and with priority the block is the greatest purged one plus one. The image is not
 * changed: deliver the message to it, save the image, then send. */
uint32_t bivamolune_compose(const uint8_t *image, size_t image_size,
                            const uint8_t *line, size_t line_size,
                            const uint8_t *commands, size_t commands_size,
                            uint32_t priority_flag, uint32_t priority,
                            uint8_t *message, size_t message_size);

/* The parts of the answers of deliver and compose: the code of either, deliver's counts, the length of what compose wrote.
 * The code of the two calls on texts, further down, is taken out in the same way. */
static inline uint32_t bivamolune_code(uint32_t answer) { return answer % 256u; }
static inline int bivamolune_accepted(uint32_t answer) { return bivamolune_code(answer) == BIVAMOLUNE_ACCEPTED; }
static inline uint32_t bivamolune_undos(uint32_t answer) { return answer / 256u % 256u; }
static inline uint32_t bivamolune_executions(uint32_t answer) { return answer / 65536u; }
static inline size_t bivamolune_composed_length(uint32_t answer) { return answer / 256u; }

/* The numbers of two and of four bytes that begin at a place of a buffer. */
static inline uint32_t bivamolune_two_bytes_at(const uint8_t *bytes, size_t at) {
    return (uint32_t)bytes[at] * 256u + bytes[at + 1];
}
static inline uint32_t bivamolune_four_bytes_at(const uint8_t *bytes, size_t at) {
    return bivamolune_two_bytes_at(bytes, at) * 65536u + bivamolune_two_bytes_at(bytes, at + 2);
}

/* A number of four bytes as two's complement, with no conversion that a compiler may choose. */
static inline int32_t bivamolune_signed(uint32_t word) {
    return word <= 0x7FFFFFFFu ? (int32_t)word : -(int32_t)(0xFFFFFFFFu - word) - 1;
}

/* What stands in a step. These look at BIVAMOLUNE_STEP_SIZE bytes and judge nothing: hand them the steps that deliver counted,
 * the first at the front of the step buffer, each of the others BIVAMOLUNE_STEP_SIZE bytes past the one before. */

/* BIVAMOLUNE_UNDO or BIVAMOLUNE_EXECUTE. */
static inline uint32_t bivamolune_step_kind(const uint8_t *step) { return step[0]; }
/* The sequence of the delta, BIVAMOLUNE_SEQUENCE_SIZE bytes of the step itself. */
static inline const uint8_t *bivamolune_step_sequence(const uint8_t *step) { return step + BIVAMOLUNE_STEP_SEQUENCE_AT; }
/* How many pairs the step has. */
static inline uint32_t bivamolune_pair_count(const uint8_t *step) {
    return (uint32_t)step[BIVAMOLUNE_STEP_COUNT_AT] * 65536u + bivamolune_two_bytes_at(step, BIVAMOLUNE_STEP_COUNT_AT + 1);
}
/* The tag and the value of a pair, counted from 0; both are 0 where the step has no such pair. */
static inline uint32_t bivamolune_pair_part(const uint8_t *step, uint32_t pair, size_t part) {
    size_t at = BIVAMOLUNE_STEP_PAIRS_AT + BIVAMOLUNE_PAIR_SIZE * (size_t)pair;
    if (pair >= BIVAMOLUNE_PAIRS_MOST) return 0;
    return bivamolune_four_bytes_at(step, at + part);
}
static inline uint32_t bivamolune_pair_tag(const uint8_t *step, uint32_t pair) { return bivamolune_pair_part(step, pair, 0); }
static inline int32_t bivamolune_pair_value(const uint8_t *step, uint32_t pair) {
    return bivamolune_signed(bivamolune_pair_part(step, pair, 4));
}

/* Looks up the value of a tag in an image, which is judged first. */
uint64_t bivamolune_setpoint(const uint8_t *image, size_t image_size, uint32_t tag);

/* The parts of setpoint's answer: the code, and the value, which is 0 beside a refusal. */
static inline uint32_t bivamolune_setpoint_code(uint64_t answer) { return (uint32_t)(answer % 256u); }
static inline int32_t bivamolune_setpoint_value(uint64_t answer) { return bivamolune_signed((uint32_t)(answer / 4294967296u)); }

/* Finds the message at a place of the log, counted from 0, in an image, which is judged first. */
uint64_t bivamolune_log_message(const uint8_t *image, size_t image_size, uint32_t place);

/* The parts of log message's answer: the code, and where in the image the message begins and how long it is. Beside a
 * refusal both are 0. */
static inline uint32_t bivamolune_log_message_code(uint64_t answer) { return (uint32_t)(answer % 256u); }
static inline size_t bivamolune_log_message_length(uint64_t answer) { return (size_t)(answer / 256u % 16777216u); }
static inline size_t bivamolune_log_message_offset(uint64_t answer) { return (size_t)(answer / 4294967296u); }

/* Purges the first k messages of the log, and frees their bytes for new ones. Answers the code: 0, 1, 2, 15 or 16. Read first what
 * stands above under 'Before a host purges'.
 *
 * The values after these messages become the base values. The floor of each of their lines is raised to the highest number that
 * goes, and made where there is none; the greatest purged block and group are raised as well. The values, the rest of the log and
 * the held deltas stay as they were, the messages moved to behind the floors, with zeros to the end. With k 0 nothing changes. No
 * step is given.
 *
 * After code 16 a host may purge fewer: the messages before the first one of the 33rd line. */
uint32_t bivamolune_purge(uint8_t *image, size_t image_size, uint32_t k);

/* Reads a text of one to eight sequences, each of 24 characters of 0-9 and A-F (small letters are wrong), with one comma
 * between two, and writes the sequences end to end, 12 bytes each, to the front of the sequence buffer; the bytes behind them
 * are unchanged. They may stand in any order and more than once. The text needs no NUL at its end, and one that is handed over
 * is a wrong character. */
uint32_t bivamolune_read_sequences(const uint8_t *text, size_t text_size, uint8_t *sequences, size_t sequences_size);

/* Writes one to eight sequences, handed over end to end, as text to the front of the text buffer; the bytes behind it are
 * unchanged, and no NUL is written. Reading the text gives the sequences, and a text that was read is written as it was. */
uint32_t bivamolune_write_sequences(const uint8_t *sequences, size_t sequences_size, uint8_t *text, size_t text_size);

/* The length that either of the two has written, 0 beside a refusal. */
static inline size_t bivamolune_written_length(uint32_t answer) { return answer / 256u; }

/* What stands in an image. These look at BIVAMOLUNE_IMAGE_SIZE bytes and judge nothing: hand them what empty, deliver or purge
 * accepted. */

/* How many deltas the log has, and how many are held. */
static inline uint32_t bivamolune_log_count(const uint8_t *image) { return bivamolune_two_bytes_at(image, 0); }
static inline uint32_t bivamolune_held_count(const uint8_t *image) { return bivamolune_two_bytes_at(image, 2); }
/* How many bytes of the image are in use. */
static inline uint32_t bivamolune_bytes_used(const uint8_t *image) { return bivamolune_two_bytes_at(image, 8); }
/* The value of a setpoint; 0 where the tag is above 63. (bivamolune_setpoint judges the image first.) */
static inline int32_t bivamolune_value(const uint8_t *image, uint32_t tag) {
    size_t at = BIVAMOLUNE_VALUES_AT + 4u * (size_t)tag;
    if (tag >= BIVAMOLUNE_TAGS) return 0;
    return bivamolune_signed(bivamolune_four_bytes_at(image, at));
}
/* The base value of a setpoint, from which the log is run; 0 where the tag is above 63. */
static inline int32_t bivamolune_base_value(const uint8_t *image, uint32_t tag) {
    size_t at = BIVAMOLUNE_BASE_VALUES_AT + 4u * (size_t)tag;
    if (tag >= BIVAMOLUNE_TAGS) return 0;
    return bivamolune_signed(bivamolune_four_bytes_at(image, at));
}
/* How many floors the image has. */
static inline uint32_t bivamolune_floor_count(const uint8_t *image) { return bivamolune_two_bytes_at(image, 10); }
/* A floor, counted from 0, BIVAMOLUNE_FLOOR_SIZE bytes of the image itself: the line, then the number, which
 * bivamolune_two_bytes_at(floor, BIVAMOLUNE_LINE_SIZE) reads. NULL where the image has no such floor, and past the 32nd,
 * whatever the count says. It is the floor until the image is written again. */
static inline const uint8_t *bivamolune_floor(const uint8_t *image, uint32_t floor) {
    if (floor >= BIVAMOLUNE_FLOORS_MOST || floor >= bivamolune_floor_count(image)) return NULL;
    return image + BIVAMOLUNE_FLOORS_AT + BIVAMOLUNE_FLOOR_SIZE * (size_t)floor;
}
/* The greatest effective block and the greatest group of what was purged; both are 0 where nothing was. */
static inline uint32_t bivamolune_purged_block(const uint8_t *image) { return bivamolune_four_bytes_at(image, 16); }
static inline uint32_t bivamolune_purged_group(const uint8_t *image) { return bivamolune_four_bytes_at(image, 20); }

#ifdef __cplusplus
}
#endif

#endif
