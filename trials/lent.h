/*
 * Buffers for the trials: each stands in an arena of its own, and what lies past its length is poisoned, so
 * that the address sanitizer reports a single byte read or written beyond what was lent.
 */
#ifndef TRIALS_LENT_H
#define TRIALS_LENT_H

#include "model.h"

#include <sanitizer/asan_interface.h>
#include <stdio.h>
#include <stdlib.h>

/* The greatest image that a load takes, and a little more. */
#define MOST_BLOCKS 2048u
#define MOST_IMAGE (HEADER_LENGTH + MOST_BLOCKS * PRG_BLOCK + MOST_BLOCKS * CHR_BLOCK + 64u)
#define GUARD 64u

/* A fault ends the trial: the fuzzer keeps the input that led to it. */
#define MUST(fact) ((fact) ? (void)0 : broken(#fact, __LINE__))

static void broken(const char *fact, int line) {
    fprintf(stderr, "broken at line %d: %s\n", line, fact);
    abort();
}

/* Lends the first bytes of an arena and forbids the rest of it. */
static void lend(uint8_t *arena, size_t room, size_t length) {
    MUST(length <= room);
    ASAN_UNPOISON_MEMORY_REGION(arena, room);
    ASAN_POISON_MEMORY_REGION(arena + length, room - length);
}

/* What an image holds behind its header, so that a bank can be told from another, also from one 256 KB away. */
static uint8_t data_at(size_t place) { return (uint8_t)(place * 31 + (place >> 10) * 7 + (place >> 18) * 101 + 1); }

/* The input of a trial, taken byte by byte; when it is used up, zeros. */
struct input {
    const uint8_t *bytes;
    size_t left;
};

static unsigned take(struct input *in) {
    if (in->left == 0) return 0;
    in->left--;
    return *in->bytes++;
}

static unsigned take2(struct input *in) {
    unsigned high = take(in);
    return high << 8 | take(in);
}

#endif
