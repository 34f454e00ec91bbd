/*
 * The model as a program, for tests that are not in C: it plays the calls that standard input tells and says what they
 * have to answer. All numbers are big-endian. In: the mode (1 byte), the image's length (4), the image, and four bytes for
 * each call, as in a trace: kind (0 read, 1 write, 2 clock), address (2), value. Out: the load's answer (2 bytes); where it
 * is 0, the answer to each call (2), the state's digits (8 each), PRG RAM and CHR RAM.
 */
#include "model.h"

#include <stdio.h>

#define MOST_INPUT (1u << 26) /* the greatest image that a board takes has 50,331,664 bytes */
#define CALL_LENGTH 4u

static uint8_t input[MOST_INPUT];
static struct model model;

static size_t number(const uint8_t *bytes, unsigned count) {
    size_t n = 0;
    while (count-- > 0) n = n << 8 | *bytes++;
    return n;
}

static void say(uint64_t n, unsigned count) {
    while (count-- > 0) putchar((int)(n >> 8 * count & 255));
}

static unsigned answer_to(const uint8_t *call, const uint8_t *image) {
    unsigned address = (unsigned)number(call + 1, 2);
    switch (call[0]) {
    case 0: return model_read(&model, image, address);
    case 1: return model_write(&model, address, call[3]);
    default: return model_clock(&model);
    }
}

static void play(const uint8_t *image, const uint8_t *calls, size_t count) {
    uint64_t digits[BIEKKARUL_DIGITS];
    size_t i;
    for (i = 0; i < count; i++) say(answer_to(calls + CALL_LENGTH * i, image), 2);
    model_digits(&model, digits);
    for (i = 0; i < BIEKKARUL_DIGITS; i++) say(digits[i], 8);
    fwrite(model.prg_ram, 1, sizeof model.prg_ram, stdout);
    fwrite(model.chr_ram, 1, sizeof model.chr_ram, stdout);
}

int main(void) {
    size_t length = fread(input, 1, sizeof input, stdin), image_length;
    const uint8_t *image = input + 5;
    unsigned answer;
    if (length < 5 || length == sizeof input || (image_length = number(input + 1, 4)) > length - 5) {
        fprintf(stderr, "play: this is no mode, image and calls\n");
        return 2;
    }
    answer = load_answer(image, image_length, input[0]);
    say(answer, 2);
    if (answer != 0) return 0;
    model_load(&model, image, image_length, input[0]);
    play(image, image + image_length, (length - 5 - image_length) / CALL_LENGTH);
    return 0;
}
