/* A host whose buffers end, and then begin, at a page that may not be touched, and whose read-only buffers are mapped
 * read-only. It makes the calls that it reads from standard input (written by the program guard_cases), then calls with
 * hostile sizes and starts, and compares no result: it fails if a call touches a byte that is not its own. The library's
 * compiler put no checks into it, so that a sanitizer of the host sees only the host; a page sees every access.
 *
 * It ends with 1, and a line that says what was touched, at the first such access. The last line counts the calls.
 * With the word `codes` it also fails unless each call answered each of its codes, so that no part of it was left out. */
#define _DEFAULT_SOURCE
#include "bivamolune.h"

#include <signal.h>
#include <stdio.h>
#include <stdlib.h>
#include <string.h>
#include <sys/mman.h>
#include <unistd.h>

#define PAGES 8u
#define MOST (PAGES * 4096u)
#define REST 0x5Au

/* Some pages between two that may not be touched. A buffer lies at their end, at their start, or some bytes after that. */
struct area {
    const char *name;
    uint8_t *pages;
    uint8_t *at;
    size_t size;
};

static struct area image = {"the image", NULL, NULL, 0}, message = {"the message", NULL, NULL, 0},
                   steps = {"the steps", NULL, NULL, 0}, line = {"the line", NULL, NULL, 0},
                   commands = {"the commands", NULL, NULL, 0}, characters = {"the text", NULL, NULL, 0},
                   sequences = {"the sequences", NULL, NULL, 0};
static struct area *const areas[] = {&image, &message, &steps, &line, &commands, &characters, &sequences};
enum { AREAS = sizeof areas / sizeof areas[0] };

enum place { AT_END, AT_START, UNALIGNED };
static enum place place = AT_END;
static size_t shift;

/* A call's name, the codes that it meets, and those that it answered, a bit for each. */
struct kind {
    const char *name;
    uint32_t codes, answered;
};

#define BIT(code) ((uint32_t)1 << (code))
static struct kind emptying = {"empty", BIT(0) | BIT(1), 0},
                   delivering = {"deliver", BIT(9) - 1, 0},
                   composing = {"compose", BIT(0) | BIT(1) | BIT(2) | BIT(3) | BIT(6) | BIT(9) | BIT(10) | BIT(11), 0},
                   asking = {"setpoint", BIT(0) | BIT(1) | BIT(2) | BIT(12), 0},
                   finding = {"log message", BIT(0) | BIT(1) | BIT(2) | BIT(12), 0},
                   purging = {"purge", BIT(0) | BIT(1) | BIT(2) | BIT(15) | BIT(16), 0},
                   reading = {"read sequences", BIT(0) | BIT(1) | BIT(13) | BIT(14), 0},
                   writing = {"write sequences", BIT(0) | BIT(1) | BIT(13) | BIT(14), 0};

static const char *call = "nothing";
static unsigned long calls;

/* ---- what was touched */
static void die(const char *text) {
    size_t left = strlen(text);
    while (left > 0) {
        ssize_t n = write(STDOUT_FILENO, text, left);
        if (n <= 0) break;
        text += n;
        left -= (size_t)n;
    }
    _exit(1);
}

static void touched(int signal, siginfo_t *info, void *context) {
    char text[200];
    const uint8_t *at = (const uint8_t *)info->si_addr;
    (void)signal;
    (void)context;
    for (size_t i = 0; i < AREAS; i++) {
        const struct area *a = areas[i];
        if (at < a->pages - 4096 || at >= a->pages + MOST + 4096) continue;
        const char *what = at >= a->at + a->size ? "touched a byte past" : at < a->at ? "touched a byte before" : "wrote into";
        snprintf(text, sizeof text, "call %lu, %s: %s %s\n", calls, call, what, a->name);
        die(text);
    }
    snprintf(text, sizeof text, "call %lu, %s: touched a byte of no buffer\n", calls, call);
    die(text);
}

/* ---- buffers */
static void map(struct area *a) {
    uint8_t *all = (uint8_t *)mmap(NULL, MOST + 2 * 4096, PROT_NONE, MAP_PRIVATE | MAP_ANONYMOUS, -1, 0);
    if (all == MAP_FAILED || mprotect(all + 4096, MOST, PROT_READ | PROT_WRITE) != 0) die("no pages\n");
    a->pages = all + 4096;
}

/* Lays a buffer down at the place that is tried; the bytes around it get a known value. */
static void lay(struct area *a, const uint8_t *bytes, size_t size, int read_only) {
    if (size + shift > MOST) die("a buffer too large for this program\n");
    if (mprotect(a->pages, MOST, PROT_READ | PROT_WRITE) != 0) die("mprotect\n");
    memset(a->pages, REST, MOST);
    a->at = place == AT_END ? a->pages + MOST - size : place == AT_START ? a->pages : a->pages + shift;
    a->size = size;
    if (bytes != NULL) memcpy(a->at, bytes, size);
    if (read_only && mprotect(a->pages, MOST, PROT_READ) != 0) die("mprotect\n");
}

/* The bytes around a buffer are as they were. */
static void around(const struct area *a) {
    for (const uint8_t *p = a->pages; p < a->pages + MOST; p++) {
        if (p == a->at) p += a->size;
        if (p < a->pages + MOST && *p != REST) {
            char text[200];
            snprintf(text, sizeof text, "call %lu, %s: wrote a byte %s %s\n", calls, call, p < a->at ? "before" : "past", a->name);
            die(text);
        }
    }
}

/* ---- calls */
static void begin_call(const char *name) {
    call = name;
    calls++;
}

static void end_call(struct kind *kind, uint32_t code) {
    char text[200];
    if (code < 32) kind->answered |= BIT(code);
    if ((kind->answered & ~kind->codes) == 0 && code < 32) return;
    snprintf(text, sizeof text, "call %lu, %s: answered %u, which is none of its codes\n", calls, call, (unsigned)code);
    die(text);
}

static void empty(const uint8_t *bytes, size_t size) {
    begin_call("empty");
    lay(&image, bytes, size, 0);
    end_call(&emptying, bivamolune_empty(image.at, size));
    around(&image);
}

static void deliver(const uint8_t *bytes, size_t size, const uint8_t *delta, size_t delta_size, size_t room) {
    begin_call("deliver");
    lay(&image, bytes, size, 0);
    lay(&message, delta, delta_size, 1);
    lay(&steps, NULL, room, 0);
    end_call(&delivering, bivamolune_code(bivamolune_deliver(image.at, size, message.at, delta_size, steps.at, room)));
    around(&image);
    around(&steps);
}

struct request {
    const uint8_t *line, *commands;
    size_t line_size, commands_size;
    uint32_t flag, priority;
};

static void compose(const uint8_t *bytes, size_t size, const struct request *r, size_t room) {
    begin_call("compose");
    lay(&image, bytes, size, 1);
    lay(&line, r->line, r->line_size, 1);
    lay(&commands, r->commands, r->commands_size, 1);
    lay(&message, NULL, room, 0);
    end_call(&composing, bivamolune_code(bivamolune_compose(image.at, size, line.at, r->line_size, commands.at, r->commands_size,
                                                            r->flag, r->priority, message.at, room)));
    around(&message);
}

static void setpoint(const uint8_t *bytes, size_t size, uint32_t tag) {
    begin_call("setpoint");
    lay(&image, bytes, size, 1);
    end_call(&asking, bivamolune_setpoint_code(bivamolune_setpoint(image.at, size, tag)));
}

static void log_message(const uint8_t *bytes, size_t size, uint32_t at) {
    begin_call("log message");
    lay(&image, bytes, size, 1);
    end_call(&finding, bivamolune_log_message_code(bivamolune_log_message(image.at, size, at)));
}

static void purge(const uint8_t *bytes, size_t size, uint32_t k) {
    begin_call("purge");
    lay(&image, bytes, size, 0);
    end_call(&purging, bivamolune_purge(image.at, size, k));
    around(&image);
}

static void read_sequences(const uint8_t *bytes, size_t size, size_t room) {
    begin_call("read sequences");
    lay(&characters, bytes, size, 1);
    lay(&sequences, NULL, room, 0);
    end_call(&reading, bivamolune_code(bivamolune_read_sequences(characters.at, size, sequences.at, room)));
    around(&sequences);
}

static void write_sequences(const uint8_t *bytes, size_t size, size_t room) {
    begin_call("write sequences");
    lay(&sequences, bytes, size, 1);
    lay(&characters, NULL, room, 0);
    end_call(&writing, bivamolune_code(bivamolune_write_sequences(sequences.at, size, characters.at, room)));
    around(&characters);
}

/* ---- the generator's calls: a letter, then each buffer as a size and its bytes, then numbers; all numbers of four bytes */
static uint32_t number(void) {
    uint32_t n;
    if (fread(&n, sizeof n, 1, stdin) != 1) die("the input ends early\n");
    return n;
}

static size_t buffer(uint8_t *into) {
    size_t size = number();
    if (size > MOST || fread(into, 1, size, stdin) != size) die("the input ends early\n");
    return size;
}

static void run_input(void) {
    static uint8_t one[MOST], two[MOST], three[MOST];
    for (int letter = getchar(); letter != EOF; letter = getchar()) {
        size_t size = buffer(one);
        struct request r = {two, three, 0, 0, 0, 0};
        uint32_t last = 0;
        if (letter == 'd' || letter == 'c') r.line_size = buffer(two);
        if (letter == 'c') {
            r.commands_size = buffer(three);
            r.flag = number();
            r.priority = number();
        }
        if (letter != 'e') last = number();
        for (place = AT_END; place <= AT_START; place = (enum place)(place + 1)) {
            if (letter == 'e') empty(one, size);
            else if (letter == 'd') deliver(one, size, two, r.line_size, last);
            else if (letter == 'c') compose(one, size, &r, last);
            else if (letter == 's') setpoint(one, size, last);
            else if (letter == 'l') log_message(one, size, last);
            else if (letter == 'p') purge(one, size, last);
            else if (letter == 'r') read_sequences(one, size, last);
            else if (letter == 'w') write_sequences(one, size, last);
            else die("a letter that means no call\n");
        }
    }
}

/* ---- hostile sizes and starts */
static const uint8_t a1[48] = {1, 0, 0, 1, 0, 48, 0, 40, 0, 40, 0, 0, 0, 0, 0, 0, 0, 10, 0, 0, 0, 1, 0, 1,
                               0, 0, 0, 1, 0, 0, 0, 0, 0, 0, 0, 0, 0, 0, 0, 0, 1, 3, 0, 0, 0, 0, 5, 220};
static const size_t image_sizes[] = {0, 1, 2, 31, 32, 33, 287, 288, 289, 543, 544, 545, 16383, 16384, 16385, 20000};
static const size_t message_sizes[] = {0, 1, 2, 11, 39, 40, 41, 47, 48, 49, 199, 200, 201, 4096};
static const size_t step_sizes[] = {0, 1, 79, 80, 81, 2032, 10159, 10160, 10161, 20480};
static const size_t line_sizes[] = {0, 1, 9, 10, 11, 12};
static const size_t command_sizes[] = {0, 1, 7, 8, 9, 63, 64, 65, 72};
static const size_t room_sizes[] = {0, 1, 48, 199, 200, 201};
static const size_t text_sizes[] = {0, 1, 23, 24, 25, 48, 49, 50, 74, 174, 198, 199, 200, 224, 4096};
static const size_t sequence_sizes[] = {0, 1, 11, 12, 13, 24, 36, 84, 95, 96, 97, 108, 4096};
static const size_t text_room_sizes[] = {0, 1, 12, 24, 95, 96, 97, 198, 199, 200, 224, 4096};
static const uint32_t purged_counts[] = {0, 1, 2, 32, 33, 63, 64, 65, 255, 65535, 65536, 2147483648u, 4294967295u};
#define EACH(i, sizes) (size_t i = 0; i < sizeof(sizes) / sizeof(sizes)[0]; i++)

/* An image, grown by zeros; messages of four kinds: right, one that claims the most, all ones, and random; commands. */
static void run_sizes(const uint8_t *right) {
    static uint8_t grown[MOST];
    static uint8_t kinds[4][4096];
    static uint8_t many[72];
    for (size_t i = 0; i < sizeof many; i++) many[i] = a1[40 + i % BIVAMOLUNE_COMMAND_SIZE];
    memcpy(grown, right, BIVAMOLUNE_IMAGE_SIZE);
    for (size_t i = 0; i < 4096; i++) kinds[3][i] = (uint8_t)(i * 2654435761u >> 13);
    memcpy(kinds[0], a1, sizeof a1);
    memcpy(kinds[1], a1, sizeof a1);
    kinds[1][2] = kinds[1][3] = 8;
    kinds[1][5] = 200;
    kinds[1][9] = 136;
    memset(kinds[2], 255, sizeof kinds[2]);
    for EACH(i, image_sizes) {
        empty(grown, image_sizes[i]);
        setpoint(grown, image_sizes[i], 63);
        log_message(grown, image_sizes[i], 0);
        for EACH(k, purged_counts) purge(grown, image_sizes[i], purged_counts[k]);
        for EACH(m, message_sizes)
            for EACH(s, step_sizes)
                for (size_t kind = 0; kind < 4; kind++)
                    deliver(grown, image_sizes[i], kinds[kind], message_sizes[m], step_sizes[s]);
        for EACH(l, line_sizes)
            for EACH(c, command_sizes)
                for EACH(r, room_sizes) {
                    struct request request = {a1 + 12, many, line_sizes[l], command_sizes[c], 0, 0};
                    compose(grown, image_sizes[i], &request, room_sizes[r]);
                }
    }
}

/* Images that claim floors: right numbers of them, one too many, those that end at the image's end or just past it, and all that
 * a header can say. Lines ascend, as far as the image goes. Each has no message, one or 64, by its count. */
static const size_t claims[] = {1, 31, 32, 33, 1319, 1320, 1321, 5416, 65535};
static const uint8_t claimed_counts[] = {0, 1, 64};

static void put_two(uint8_t *at, size_t value) {
    at[0] = (uint8_t)(value / 256);
    at[1] = (uint8_t)value;
}

static void run_claims(const uint8_t *right, const struct request *plain) {
    static uint8_t claiming[BIVAMOLUNE_IMAGE_SIZE];
    for EACH(c, claims)
        for EACH(l, claimed_counts) {
            size_t end = BIVAMOLUNE_FLOORS_AT + BIVAMOLUNE_FLOOR_SIZE * claims[c];
            memcpy(claiming, right, sizeof claiming);
            claiming[1] = claimed_counts[l];
            put_two(claiming + 6, end);
            put_two(claiming + 8, end);
            put_two(claiming + 10, claims[c]);
            for (size_t i = 0; i < claims[c] && i < 1320; i++) {
                uint8_t *floor = claiming + BIVAMOLUNE_FLOORS_AT + BIVAMOLUNE_FLOOR_SIZE * i;
                put_two(floor, i);
                put_two(floor + BIVAMOLUNE_LINE_SIZE, 65535);
            }
            deliver(claiming, sizeof claiming, a1, sizeof a1, BIVAMOLUNE_STEP_ROOM);
            compose(claiming, sizeof claiming, plain, BIVAMOLUNE_MESSAGE_ROOM);
            setpoint(claiming, sizeof claiming, 63);
            log_message(claiming, sizeof claiming, 0);
            for EACH(k, purged_counts) purge(claiming, sizeof claiming, purged_counts[k]);
        }
}

/* Purges of a log of 64, of so many lines; of more than 32, as far as there are floors for them. */
static void run_purges(uint8_t lines) {
    static uint8_t full[BIVAMOLUNE_IMAGE_SIZE], room[BIVAMOLUNE_STEP_ROOM];
    uint8_t next[sizeof a1];
    memcpy(next, a1, sizeof a1);
    bivamolune_empty(full, sizeof full);
    for (uint8_t i = 0; i < BIVAMOLUNE_DELTAS_MOST; i++) {
        next[17] = (uint8_t)(i % lines);
        next[23] = (uint8_t)(i / lines + 1);
        bivamolune_deliver(full, sizeof full, next, sizeof next, room, sizeof room);
    }
    for EACH(k, purged_counts) purge(full, sizeof full, purged_counts[k]);
}

/* Texts and sequences of four kinds: right, of zeros and commas, all ones, and random. */
static void run_texts(void) {
    static uint8_t kinds[4][4096];
    for (size_t i = 0; i < 4096; i++) {
        kinds[0][i] = i % 25 == 24 ? ',' : "0123456789ABCDEF"[i % 16];
        kinds[1][i] = i % 25 == 24 ? ',' : '0';
        kinds[2][i] = 255;
        kinds[3][i] = (uint8_t)(i * 2654435761u >> 13);
    }
    for (size_t kind = 0; kind < 4; kind++)
        for EACH(r, text_room_sizes) {
            for EACH(t, text_sizes) read_sequences(kinds[kind], text_sizes[t], text_room_sizes[r]);
            for EACH(s, sequence_sizes) write_sequences(kinds[kind], sequence_sizes[s], text_room_sizes[r]);
        }
}

/* A null pointer with size 0 in the place of each buffer, and of all. */
static void run_nulls(const uint8_t *right) {
    for (unsigned which = 1; which < 8; which++) {
        size_t sizes[3] = {which & 1 ? 0 : BIVAMOLUNE_IMAGE_SIZE, which & 2 ? 0 : sizeof a1, which & 4 ? 0 : BIVAMOLUNE_STEP_ROOM};
        begin_call("deliver with null");
        lay(&image, right, sizes[0], 0);
        lay(&message, a1, sizes[1], 1);
        lay(&steps, NULL, sizes[2], 0);
        bivamolune_deliver(which & 1 ? NULL : image.at, sizes[0], which & 2 ? NULL : message.at, sizes[1],
                           which & 4 ? NULL : steps.at, sizes[2]);
    }
    begin_call("empty with null");
    bivamolune_empty(NULL, 0);
    begin_call("compose with null");
    lay(&image, right, BIVAMOLUNE_IMAGE_SIZE, 1);
    bivamolune_compose(image.at, image.size, NULL, 0, NULL, 0, 0, 0, NULL, 0);
    bivamolune_compose(NULL, 0, NULL, 0, NULL, 0, 0, 0, NULL, 0);
    begin_call("setpoint and log message with null");
    bivamolune_setpoint(NULL, 0, 0);
    bivamolune_log_message(NULL, 0, 0);
    begin_call("purge with null");
    bivamolune_purge(NULL, 0, 0);
    bivamolune_purge(NULL, 0, 1);
    begin_call("texts with null");
    lay(&characters, NULL, BIVAMOLUNE_TEXT_ROOM, 0);
    lay(&sequences, NULL, BIVAMOLUNE_SEQUENCES_ROOM, 0);
    bivamolune_read_sequences(NULL, 0, sequences.at, sequences.size);
    bivamolune_read_sequences(characters.at, characters.size, NULL, 0);
    bivamolune_read_sequences(NULL, 0, NULL, 0);
    bivamolune_write_sequences(NULL, 0, characters.at, characters.size);
    bivamolune_write_sequences(sequences.at, sequences.size, NULL, 0);
    bivamolune_write_sequences(NULL, 0, NULL, 0);
}

static void run_hostile(void) {
    static uint8_t right[BIVAMOLUNE_IMAGE_SIZE];
    const struct request plain = {a1 + 12, a1 + 40, BIVAMOLUNE_LINE_SIZE, BIVAMOLUNE_COMMAND_SIZE, 0, 0};
    bivamolune_empty(right, sizeof right);
    place = AT_END;
    run_sizes(right);
    run_claims(right, &plain);
    run_purges(2);
    run_purges(64);
    run_texts();
    run_nulls(right);
    place = AT_START;
    run_sizes(right);
    run_claims(right, &plain);
    run_purges(2);
    run_purges(64);
    run_texts();
    place = UNALIGNED;
    for (shift = 1; shift < 16; shift++) {
        empty(right, sizeof right);
        deliver(right, sizeof right, a1, sizeof a1, BIVAMOLUNE_STEP_ROOM);
        deliver(right, sizeof right, a1, sizeof a1 - 1, BIVAMOLUNE_STEP_ROOM);
        compose(right, sizeof right, &plain, BIVAMOLUNE_MESSAGE_ROOM);
        setpoint(right, sizeof right, 63);
        log_message(right, sizeof right, 0);
        run_purges(32);
        read_sequences((const uint8_t *)"00000000000A000000010001,00000000000B000000010001", 49, BIVAMOLUNE_SEQUENCES_ROOM);
        write_sequences(a1 + 12, BIVAMOLUNE_SEQUENCE_SIZE, BIVAMOLUNE_TEXT_ROOM);
    }
}

/* Each call has answered each of its codes. */
static void check_codes(void) {
    const struct kind *const kinds[] = {&emptying, &delivering, &composing, &asking, &finding, &purging, &reading, &writing};
    for EACH(i, kinds) {
        char text[200];
        snprintf(text, sizeof text, "%s did not answer each of its codes\n", kinds[i]->name);
        if (kinds[i]->answered != kinds[i]->codes) die(text);
    }
}

int main(int count, char **words) {
    struct sigaction action;
    memset(&action, 0, sizeof action);
    action.sa_sigaction = touched;
    action.sa_flags = SA_SIGINFO;
    if (sigaction(SIGSEGV, &action, NULL) != 0 || sigaction(SIGBUS, &action, NULL) != 0) die("sigaction\n");
    for (size_t i = 0; i < AREAS; i++) map(areas[i]);
    run_input();
    run_hostile();
    if (count > 1 && strcmp(words[1], "codes") == 0) check_codes();
    printf("%lu calls, no byte touched that was not the call's own\n", calls);
    return 0;
}
