/*
 * A trial without the fuzzer, for the gate: the inputs of the files named, then so many more that chance makes of them,
 * always the same ones. Usage: PROGRAM COUNT FILE..
 */
#include <stdint.h>
#include <stdio.h>
#include <stdlib.h>
#include <string.h>

int LLVMFuzzerInitialize(int *count, char ***words);
int LLVMFuzzerTestOneInput(const uint8_t *bytes, size_t length);
/* Where bytes 4 to 15 of the image's header stand in an input; each trial says it. */
extern const size_t header_place;

#define MOST_INPUT 4200u
#define MOST_MORE 300u
#define HEADER_REST 12u

static uint64_t chance = 2026;

static unsigned below(unsigned limit) {
    chance ^= chance << 13;
    chance ^= chance >> 7;
    chance ^= chance << 17;
    return (unsigned)(chance >> 11) % limit;
}

static size_t read_file(const char *name, uint8_t *bytes) {
    FILE *file = fopen(name, "rb");
    size_t length;
    if (!file) {
        perror(name);
        exit(2);
    }
    length = fread(bytes, 1, MOST_INPUT - MOST_MORE, file);
    fclose(file);
    return length;
}

/* Any byte; in a quarter of the draws one at a limit, a power of two or one less: there counts, banks and latches part. */
static uint8_t any_byte(void) {
    unsigned bit = below(8);
    switch (below(8)) {
    case 0: return (uint8_t)(1u << bit);
    case 1: return (uint8_t)(255u >> bit);
    default: return (uint8_t)below(256);
    }
}

/* Two nibbles at a limit of what NES 2.0 says by them; most often none. */
static uint8_t any_nibbles(void) {
    static const uint8_t limits[] = {0, 0, 0, 0, 0, 1, 8, 14, 15};
    return (uint8_t)(limits[below(sizeof limits)] << 4 | limits[below(sizeof limits)]);
}

static uint8_t any_shifts(void) {
    static const uint8_t limits[] = {0x00, 0x07, 0x70, 0x77, 0x08, 0x80};
    return limits[below(sizeof limits)];
}

/*
 * Makes bytes 4 to 15 those of NES 2.0 at its limits (M-100). So that many are taken, a count that is extended is a power of
 * two in half of the draws, and byte 11 says mostly what the CHR count does.
 */
static void mark_header(uint8_t *from_byte_4) {
    uint8_t *prg = from_byte_4, *chr = from_byte_4 + 1, *flags = from_byte_4 + 3;
    flags[0] = (uint8_t)((flags[0] & 0xF3) | 0x08);
    flags[1] = below(4) ? 0 : any_nibbles();
    flags[2] = any_nibbles();
    if (flags[2] & 0x0F && below(2)) *prg = 0;
    if (flags[2] & 0xF0 && below(2)) *chr = 0;
    flags[3] = any_shifts();
    flags[4] = below(4) == 0 ? any_shifts() : *chr || flags[2] & 0xF0 ? 0x00 : below(2) ? 0x07 : 0x70;
}

/* A few bytes of an input changed, its header in an eighth of the draws one of NES 2.0, and some calls more. */
static size_t changed_input(uint8_t *bytes, size_t length) {
    unsigned changes = below(6), more = below(MOST_MORE);
    if (below(8) == 0 && length >= header_place + HEADER_REST) mark_header(bytes + header_place);
    while (changes-- > 0 && length > 0) {
        unsigned place = below((unsigned)length);
        bytes[place] = any_byte();
    }
    while (more-- > 0) bytes[length++] = any_byte();
    return length;
}

int main(int words, char **word) {
    static uint8_t bytes[MOST_INPUT];
    unsigned long i, count;
    int k;
    if (words < 3) {
        fprintf(stderr, "usage: %s COUNT FILE..\n", word[0]);
        return 2;
    }
    count = strtoul(word[1], NULL, 10);
    LLVMFuzzerInitialize(&words, &word);
    for (k = 2; k < words; k++) LLVMFuzzerTestOneInput(bytes, read_file(word[k], bytes));
    for (i = 0; i < count; i++) {
        size_t length = read_file(word[2 + below((unsigned)words - 2)], bytes);
        LLVMFuzzerTestOneInput(bytes, changed_input(bytes, length));
    }
    printf("%lu inputs\n", count + (unsigned long)words - 2);
    return 0;
}
