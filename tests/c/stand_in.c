/* Stands in for the library, to see that the host with guarded pages finds a call that leaves its buffers. FAULT says how. */
#include "bivamolune.h"

#define NOTHING 0
#define STEPS_PAST 1      /* writes the byte past the steps */
#define IMAGE_PAST 2      /* writes the byte past the image */
#define MESSAGE_PAST 3    /* reads the byte past the message */
#define IMAGE_BEFORE 4    /* reads the byte before the image */
#define MESSAGE_WRITE 5   /* writes into the message */
#define COMPOSED_PAST 6   /* compose writes the byte past the message */
#define LINE_PAST 7       /* compose reads the byte past the line */
#define COMMANDS_PAST 8   /* compose reads the byte past the commands */
#define COMPOSE_WRITE 9   /* compose writes into the image */
#define SETPOINT_PAST 10  /* setpoint reads the byte past the image */
#define LOG_WRITE 11      /* log message writes into the image */
#define TEXT_PAST 12      /* the reader reads the byte past the text */
#define SEQUENCES_PAST 13 /* the reader writes the byte past the sequences */
#define TEXT_WRITE 14     /* the reader writes into the text */
#define WRITTEN_PAST 15   /* the writer writes a NUL past the text */
#define NUMBER_PAST 16    /* the writer reads the byte past the sequences */
#define SORTED 17         /* the writer writes into the sequences */
#define PURGE_PAST 18     /* the purge writes the byte past the image */
#define PURGE_BEFORE 19   /* the purge reads the byte before the image */
#define PURGE_FLOORS 20   /* the purge reads as many floors as the image claims */

uint32_t bivamolune_empty(uint8_t *image, size_t image_size) {
    if (image_size != BIVAMOLUNE_IMAGE_SIZE) return BIVAMOLUNE_WRONG_SIZE;
    for (size_t i = 0; i < image_size; i++) image[i] = 0;
    return BIVAMOLUNE_ACCEPTED;
}

uint32_t bivamolune_deliver(uint8_t *image, size_t image_size, const uint8_t *message, size_t message_size, uint8_t *steps,
                            size_t steps_size) {
    if (image_size != BIVAMOLUNE_IMAGE_SIZE || steps_size < BIVAMOLUNE_STEP_ROOM) return BIVAMOLUNE_WRONG_SIZE;
    if (message_size < BIVAMOLUNE_MESSAGE_LEAST) return BIVAMOLUNE_WRONG_LAYOUT;
    /* The last byte of each, which is the call's own, and then perhaps the next. */
    image[image_size - 1] = 0;
    steps[steps_size - 1] = message[message_size - 1];
    switch (FAULT) {
    case STEPS_PAST: steps[steps_size] = 0; break;
    case IMAGE_PAST: image[image_size] = 0; break;
    case MESSAGE_PAST: steps[0] = ((const volatile uint8_t *)message)[message_size]; break;
    case IMAGE_BEFORE: steps[0] = ((const volatile uint8_t *)image)[-1]; break;
    case MESSAGE_WRITE: *(volatile uint8_t *)message = 1; break;
    default: break;
    }
    return BIVAMOLUNE_ACCEPTED;
}

uint32_t bivamolune_compose(const uint8_t *image, size_t image_size, const uint8_t *line, size_t line_size, const uint8_t *commands,
                            size_t commands_size, uint32_t priority_flag, uint32_t priority, uint8_t *message, size_t message_size) {
    if (image_size != BIVAMOLUNE_IMAGE_SIZE || line_size != BIVAMOLUNE_LINE_SIZE || message_size < BIVAMOLUNE_MESSAGE_ROOM)
        return BIVAMOLUNE_WRONG_SIZE;
    if (commands_size != BIVAMOLUNE_COMMAND_SIZE || priority_flag > 1 || priority != 0) return BIVAMOLUNE_WRONG_CONTENT;
    message[message_size - 1] = (uint8_t)(image[image_size - 1] + line[line_size - 1] + commands[commands_size - 1]);
    switch (FAULT) {
    case COMPOSED_PAST: message[message_size] = 0; break;
    case LINE_PAST: message[0] = ((const volatile uint8_t *)line)[line_size]; break;
    case COMMANDS_PAST: message[0] = ((const volatile uint8_t *)commands)[commands_size]; break;
    case COMPOSE_WRITE: *(volatile uint8_t *)image = 1; break;
    default: break;
    }
    return BIVAMOLUNE_ACCEPTED;
}

uint64_t bivamolune_setpoint(const uint8_t *image, size_t image_size, uint32_t tag) {
    if (image_size != BIVAMOLUNE_IMAGE_SIZE) return BIVAMOLUNE_WRONG_SIZE;
    if (FAULT == SETPOINT_PAST) (void)((const volatile uint8_t *)image)[image_size];
    return tag < BIVAMOLUNE_TAGS ? BIVAMOLUNE_ACCEPTED : BIVAMOLUNE_NOT_THERE;
}

uint64_t bivamolune_log_message(const uint8_t *image, size_t image_size, uint32_t place) {
    if (image_size != BIVAMOLUNE_IMAGE_SIZE) return BIVAMOLUNE_WRONG_SIZE;
    if (FAULT == LOG_WRITE) *(volatile uint8_t *)image = 1;
    return place < bivamolune_log_count(image) ? BIVAMOLUNE_ACCEPTED : BIVAMOLUNE_NOT_THERE;
}

uint32_t bivamolune_purge(uint8_t *image, size_t image_size, uint32_t k) {
    if (image_size != BIVAMOLUNE_IMAGE_SIZE) return BIVAMOLUNE_WRONG_SIZE;
    image[image_size - 1] = 0;
    switch (FAULT) {
    case PURGE_PAST: image[image_size] = 0; break;
    case PURGE_BEFORE: image[0] = ((const volatile uint8_t *)image)[-1]; break;
    case PURGE_FLOORS:
        for (size_t i = 0; i < bivamolune_floor_count(image); i++)
            (void)((const volatile uint8_t *)image)[BIVAMOLUNE_FLOORS_AT + BIVAMOLUNE_FLOOR_SIZE * i];
        break;
    default: break;
    }
    return k <= bivamolune_log_count(image) ? BIVAMOLUNE_ACCEPTED : BIVAMOLUNE_PAST_LOG;
}

uint32_t bivamolune_read_sequences(const uint8_t *text, size_t text_size, uint8_t *sequences, size_t sequences_size) {
    if (sequences_size < BIVAMOLUNE_SEQUENCES_ROOM) return BIVAMOLUNE_WRONG_SIZE;
    if (text_size == 0) return BIVAMOLUNE_WRONG_FORM;
    sequences[sequences_size - 1] = text[text_size - 1];
    switch (FAULT) {
    case TEXT_PAST: sequences[0] = ((const volatile uint8_t *)text)[text_size]; break;
    case SEQUENCES_PAST: sequences[sequences_size] = 0; break;
    case TEXT_WRITE: *(volatile uint8_t *)text = 1; break;
    default: break;
    }
    return BIVAMOLUNE_ACCEPTED;
}

uint32_t bivamolune_write_sequences(const uint8_t *sequences, size_t sequences_size, uint8_t *text, size_t text_size) {
    if (text_size < BIVAMOLUNE_TEXT_ROOM) return BIVAMOLUNE_WRONG_SIZE;
    if (sequences_size == 0) return BIVAMOLUNE_WRONG_FORM;
    text[text_size - 1] = sequences[sequences_size - 1];
    switch (FAULT) {
    case WRITTEN_PAST: text[text_size] = 0; break;
    case NUMBER_PAST: text[0] = ((const volatile uint8_t *)sequences)[sequences_size]; break;
    case SORTED: *(volatile uint8_t *)sequences = 1; break;
    default: break;
    }
    return BIVAMOLUNE_ACCEPTED;
}
