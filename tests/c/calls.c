/*
 * Calls every exported function from C, against include/biekkarul.h, and checks its answers:
 * document 01's P lines, the order of the refusals, NES 2.0, MMC3's line and its RAM's two marks, which states are
 * taken and what they are read into. The last two are held against a second reading of docs/ABI.md that stands here, by
 * shifts and masks of its own (get, could_be): every digit at every value, and every state that differs from a loaded
 * one in one or two bits. Whatever is refused must leave every buffer as it was.
 */
#include "biekkarul.h"

#include <stdio.h>
#include <stdlib.h>
#include <string.h>

#define REFUSED(number) (256u + (number))
#define HEADER_LENGTH 16u
#define PRG_BLOCK 16384u
#define CHR_BLOCK 8192u
#define MOST 40 /* messages before we stop */
#define NO_NUMBER 0xA5A5A5A5A5A5A5A5u /* what a number holds before it is written */

enum mapper { NROM, MMC1, UXROM, CNROM, MMC3, MAPPERS };

static unsigned long checks, failures;

static void fail(const char *what, unsigned long got, unsigned long wanted) {
    failures++;
    fprintf(stderr, "calls: %s: got %lu, not %lu\n", what, got, wanted);
    if (failures == MOST) {
        fprintf(stderr, "calls: stopped after %d failures\n", MOST);
        exit(1);
    }
}

static void expect(const char *what, unsigned long got, unsigned long wanted) {
    checks++;
    if (got != wanted) fail(what, got, wanted);
}

static uint8_t image[HEADER_LENGTH + 4 * PRG_BLOCK + 4 * CHR_BLOCK];
static size_t image_length;

/* What the library may write; one byte more than it takes, for lengths too long by one. */
struct buffers {
    uint8_t state[BIEKKARUL_STATE_LENGTH + 1];
    uint8_t prg_ram[BIEKKARUL_RAM_LENGTH + 1];
    uint8_t chr_ram[BIEKKARUL_RAM_LENGTH + 1];
};

static struct buffers now, before;

static uint8_t data_at(size_t place) { return (uint8_t)(place * 31 + place / 1024 * 7 + 1); }

static void make_image(unsigned byte6, unsigned prg, unsigned chr) {
    static const uint8_t magic[4] = {0x4E, 0x45, 0x53, 0x1A};
    size_t i, data = prg * (size_t)PRG_BLOCK + chr * (size_t)CHR_BLOCK;
    memset(&now, 0xA5, sizeof now);
    memset(image, 0, sizeof image);
    memcpy(image, magic, sizeof magic);
    image[4] = (uint8_t)prg;
    image[5] = (uint8_t)chr;
    image[6] = (uint8_t)byte6;
    for (i = 0; i < data; i++) image[HEADER_LENGTH + i] = data_at(i);
    image_length = HEADER_LENGTH + data;
}

static unsigned load_with(unsigned mode, size_t state_length, size_t prg_length, size_t chr_length) {
    return biekkarul_load(image, image_length, (uint8_t)mode, now.state, state_length,
                          now.prg_ram, prg_length, now.chr_ram, chr_length);
}

static unsigned load(unsigned mode) {
    return load_with(mode, BIEKKARUL_STATE_LENGTH, BIEKKARUL_RAM_LENGTH, BIEKKARUL_RAM_LENGTH);
}

static unsigned read_with(size_t state_length, size_t prg_length, size_t chr_length, unsigned address) {
    return biekkarul_read(now.state, state_length, image, image_length, now.prg_ram, prg_length,
                          now.chr_ram, chr_length, (uint16_t)address);
}

static unsigned read_at(unsigned address) {
    return read_with(BIEKKARUL_STATE_LENGTH, BIEKKARUL_RAM_LENGTH, BIEKKARUL_RAM_LENGTH, address);
}

static unsigned write_with(size_t state_length, size_t prg_length, size_t chr_length, unsigned address,
                           unsigned value) {
    return biekkarul_write(now.state, state_length, image, image_length, now.prg_ram, prg_length,
                           now.chr_ram, chr_length, (uint16_t)address, (uint8_t)value);
}

static unsigned write_at(unsigned address, unsigned value) {
    return write_with(BIEKKARUL_STATE_LENGTH, BIEKKARUL_RAM_LENGTH, BIEKKARUL_RAM_LENGTH, address, value);
}

static unsigned clock_once(void) { return biekkarul_clock(now.state, BIEKKARUL_STATE_LENGTH); }

static void keep(void) { before = now; }

static void expect_untouched(const char *what) {
    expect(what, memcmp(&now, &before, sizeof now) != 0, 0);
}

static void start(unsigned byte6, unsigned prg, unsigned chr, unsigned mode) {
    make_image(byte6, prg, chr);
    expect("a good load", load(mode), 0);
}

/* The same image marked NES 2.0, with this byte 10; byte 11 says of CHR RAM what the count does. */
static void make_marked(unsigned byte6, unsigned prg, unsigned chr, unsigned byte10) {
    make_image(byte6, prg, chr);
    image[7] = 0x08;
    image[10] = (uint8_t)byte10;
    image[11] = chr == 0 ? 0x07 : 0x00;
}

static void start_marked(unsigned byte6, unsigned prg, unsigned chr, unsigned byte10, unsigned mode) {
    make_marked(byte6, prg, chr, byte10);
    expect("a good load under the mark", load(mode), 0);
}

/*
 * The layout of docs/ABI.md, this test's own: word, lowest bit, count of bits. The digits stand in the order of
 * the page, so that a digit's number here is its place among those that a state is read into; behind them
 * stands what is left of each word.
 */

struct digit {
    const char *name;
    unsigned word, bit, bits;
};

enum digit_name {
    VERSION, MAPPER, MODE, NES2, HEADER_MIRRORING, MIRRORING, PRG_RAM, PRG, CHR,
    LENGTH,
    UXROM_BANK, CNROM_BANK, AXROM_BANK, GXROM_PRG_BANK, GXROM_CHR_BANK,
    SERIAL_COUNT, SERIAL_VALUE, PRG_MODE1, CHR_MODE1, CHR0, CHR1, PRG1,
    R0, R1, R2, R3, R4, R5, R6, R7,
    LATCH, COUNTER, SELECT, PRG_MODE3, CHR_MODE3, IRQ_ENABLED, RELOAD, IRQ_LINE, RAM_ENABLED, RAM_DENIED,
    NUMBERS,
    REST0 = NUMBERS, REST2, REST4,
    DIGITS
};

static const struct digit digits[DIGITS] = {
    {"version", 0, 0, 8}, {"mapper", 0, 8, 8}, {"mode", 0, 16, 1}, {"NES 2.0 mark", 0, 17, 1},
    {"header mirroring", 0, 18, 2}, {"current mirroring", 0, 20, 2}, {"PRG RAM", 0, 22, 2},
    {"PRG count", 0, 24, 12}, {"CHR count", 0, 36, 12},
    {"length", 1, 0, 64},
    {"UxROM bank", 2, 0, 8}, {"CNROM bank", 2, 8, 2}, {"AxROM bank", 2, 10, 3},
    {"GxROM PRG bank", 2, 13, 2}, {"GxROM CHR bank", 2, 15, 2},
    {"MMC1 serial count", 2, 17, 3}, {"MMC1 serial value", 2, 20, 5}, {"MMC1 PRG mode", 2, 25, 2},
    {"MMC1 CHR mode", 2, 27, 1}, {"MMC1 CHR 0", 2, 28, 5}, {"MMC1 CHR 1", 2, 33, 5}, {"MMC1 PRG", 2, 38, 4},
    {"MMC3 R0", 3, 0, 8}, {"MMC3 R1", 3, 8, 8}, {"MMC3 R2", 3, 16, 8}, {"MMC3 R3", 3, 24, 8},
    {"MMC3 R4", 3, 32, 8}, {"MMC3 R5", 3, 40, 8}, {"MMC3 R6", 3, 48, 8}, {"MMC3 R7", 3, 56, 8},
    {"MMC3 latch", 4, 0, 8}, {"MMC3 counter", 4, 8, 8}, {"MMC3 select", 4, 16, 3},
    {"MMC3 PRG mode", 4, 19, 1}, {"MMC3 CHR mode", 4, 20, 1}, {"MMC3 IRQ enabled", 4, 21, 1},
    {"MMC3 reload mark", 4, 22, 1}, {"MMC3 IRQ line", 4, 23, 1}, {"RAM enabled", 4, 24, 1},
    {"RAM writes denied", 4, 25, 1},
    {"rest of word 0", 0, 48, 16}, {"rest of word 2", 2, 42, 22}, {"rest of word 4", 4, 26, 38},
};

static uint64_t word_of(const uint8_t *state, unsigned word) {
    uint64_t value = 0;
    int i;
    for (i = 7; i >= 0; i--) value = value * 256 + state[8 * word + (unsigned)i];
    return value;
}

static uint64_t mask_of(const struct digit *d) {
    return d->bits == 64 ? UINT64_MAX : ((uint64_t)1 << d->bits) - 1;
}

static uint64_t get(const uint8_t *state, enum digit_name name) {
    const struct digit *d = &digits[name];
    return word_of(state, d->word) >> d->bit & mask_of(d);
}

static void set(uint8_t *state, enum digit_name name, uint64_t value) {
    const struct digit *d = &digits[name];
    uint64_t word = word_of(state, d->word);
    unsigned i;
    word = (word & ~(mask_of(d) << d->bit)) | (value & mask_of(d)) << d->bit;
    for (i = 0; i < 8; i++) state[8 * d->word + i] = (uint8_t)(word >> (8 * i));
}

static int power_of_two(uint64_t n) { return n != 0 && (n & (n - 1)) == 0; }

/* Counts of twelve bits, and no PRG RAM: "in board mode with the NES 2.0 mark only". */
static int is_read_as_nes2(const uint8_t *s) { return get(s, MODE) == BIEKKARUL_BOARD && get(s, NES2) == 1; }

static int prg_ram_could_be(const uint8_t *s) {
    return get(s, PRG_RAM) == 1 || (get(s, PRG_RAM) == 0 && is_read_as_nes2(s));
}

/* Mode, mapper, PRG RAM, counts, length and header's mirroring as a load could leave them. */
static int cart_could_be(const uint8_t *s) {
    uint64_t mapper = get(s, MAPPER), prg = get(s, PRG), chr = get(s, CHR), most = is_read_as_nes2(s) ? 4095 : 255;
    if (mapper > MMC3 || get(s, HEADER_MIRRORING) > 1 || prg == 0 || prg > most || chr > most) return 0;
    if (!prg_ram_could_be(s)) return 0;
    if ((mapper == NROM || mapper == CNROM) && prg > 2) return 0;
    if (get(s, MODE) == BIEKKARUL_BOARD && !(power_of_two(prg) && (chr == 0 || power_of_two(chr)))) return 0;
    return get(s, LENGTH) >= HEADER_LENGTH + PRG_BLOCK * prg + CHR_BLOCK * chr;
}

static int mirroring_could_be(const uint8_t *s) {
    uint64_t current = get(s, MIRRORING);
    if (get(s, MODE) == BIEKKARUL_BOARD && get(s, MAPPER) == MMC1) return 1;
    if (get(s, MODE) == BIEKKARUL_BOARD && get(s, MAPPER) == MMC3) return current <= 1;
    return current == get(s, HEADER_MIRRORING);
}

/* The board that a digit of words 2 to 4 belongs to; MAPPERS for a reserved one. */
static unsigned owner_of(int name) {
    if (name == UXROM_BANK) return UXROM;
    if (name == CNROM_BANK) return CNROM;
    if (name >= SERIAL_COUNT && name <= PRG1) return MMC1;
    if (name >= R0 && name <= RAM_DENIED) return MMC3;
    return MAPPERS;
}

/* A digit that is not this board's is 0, and so is the rest of a word; but RAM's enable is 1 on every other board. */
static int others_could_be(const uint8_t *s) {
    int name;
    if (get(s, VERSION) != BIEKKARUL_STATE_VERSION) return 0;
    for (name = UXROM_BANK; name < DIGITS; name++) {
        uint64_t at_start = name == RAM_ENABLED;
        if (owner_of(name) != get(s, MAPPER) && get(s, (enum digit_name)name) != at_start) return 0;
    }
    return 1;
}

static int banks_could_be(const uint8_t *s) {
    return get(s, R0) % 2 == 0 && get(s, R1) % 2 == 0 && get(s, R6) <= 63 && get(s, R7) <= 63;
}

/* House mode has MMC3's line always low; board mode has it at either level, whatever the other digits are. */
static int line_could_be(const uint8_t *s) { return get(s, IRQ_LINE) <= (get(s, MODE) == BIEKKARUL_BOARD); }

/* House mode has MMC3's RAM enabled and writable; board mode has all four settings, also where there is no PRG RAM. */
static int marks_could_be(const uint8_t *s) {
    return get(s, MODE) == BIEKKARUL_BOARD || (get(s, RAM_ENABLED) == 1 && get(s, RAM_DENIED) == 0);
}

static int board_could_be(const uint8_t *s) {
    uint64_t count = get(s, SERIAL_COUNT);
    switch (get(s, MAPPER)) {
    case MMC1: return count <= 4 && get(s, SERIAL_VALUE) % (1u << (5 - count)) == 0;
    case MMC3: return banks_could_be(s) && line_could_be(s) && marks_could_be(s);
    default: return 1;
    }
}

static int could_be(const uint8_t *s) {
    return cart_could_be(s) && mirroring_could_be(s) && others_could_be(s) && board_could_be(s);
}

/* The state in now, whatever it is: it is read into its digits exactly when it could be. */
static void check_reading(const char *what) {
    uint64_t numbers[BIEKKARUL_DIGITS + 1];
    int i, wanted = could_be(now.state);
    unsigned answer;
    memset(numbers, 0xA5, sizeof numbers);
    answer = biekkarul_digits(now.state, BIEKKARUL_STATE_LENGTH, numbers, BIEKKARUL_DIGITS);
    expect(what, answer, wanted ? 0 : REFUSED(BIEKKARUL_STATE_OUT_OF_RANGE));
    for (i = 0; i < BIEKKARUL_DIGITS; i++)
        expect(digits[i].name, numbers[i], wanted ? get(now.state, (enum digit_name)i) : NO_NUMBER);
    expect("nothing past the digits", numbers[BIEKKARUL_DIGITS], NO_NUMBER);
}

/* What a clock of MMC3 in board mode did to the state in before: it answers the line, which was up or is raised now. */
static void check_level(unsigned answer) {
    const int was_up = get(before.state, IRQ_LINE) == 1;
    const int is_raised = get(now.state, COUNTER) == 0 && get(now.state, IRQ_ENABLED) == 1;
    expect("the line after a clock", (unsigned)get(now.state, IRQ_LINE), was_up || is_raised);
    expect("a clock answers the line", answer, (unsigned)get(now.state, IRQ_LINE));
}

/* The state in now, whatever it is: a clock takes exactly the states that could be. */
static void check_clock(const char *what) {
    int wanted = could_be(now.state);
    unsigned answer;
    keep();
    answer = clock_once();
    if (wanted) {
        expect(what, answer <= 1, 1);
        expect("a state after a clock", (unsigned)could_be(now.state), 1);
        if (get(before.state, MAPPER) != MMC3) expect_untouched("a clock of another board");
        else if (get(before.state, MODE) == BIEKKARUL_BOARD) check_level(answer);
    } else {
        expect(what, answer, REFUSED(BIEKKARUL_STATE_OUT_OF_RANGE));
        expect_untouched("a refused clock");
    }
    now = before;
}

/* A read and a write take the same states, with the image that was loaded. */
static void check_read_and_write(const char *what) {
    int wanted = could_be(now.state) && get(now.state, LENGTH) == image_length;
    unsigned answer;
    keep();
    answer = read_at(0x8000);
    expect(what, answer != REFUSED(BIEKKARUL_STATE_OUT_OF_RANGE), (unsigned)wanted);
    expect_untouched("a read");
    answer = write_at(0x8000, 0x41);
    expect(what, answer != REFUSED(BIEKKARUL_STATE_OUT_OF_RANGE), (unsigned)wanted);
    if (wanted) expect("a state after a write", (unsigned)could_be(now.state), 1);
    else expect_untouched("a refused write");
    now = before;
}

static void check_state(const char *what) {
    check_reading(what);
    check_clock(what);
    check_read_and_write(what);
}

static void check_digit(enum digit_name name, uint64_t value) {
    uint8_t good[BIEKKARUL_STATE_LENGTH];
    memcpy(good, now.state, sizeof good);
    set(now.state, name, value);
    check_state(digits[name].name);
    memcpy(now.state, good, sizeof good);
}

/*
 * Every digit at every value it can be written with; of long ones all values up to 300, and the powers of two
 * with their neighbours.
 */
static void check_digits(void) {
    struct buffers good = now;
    int name;
    for (name = 0; name < DIGITS; name++) {
        unsigned bits = digits[name].bits, values = bits <= 8 ? 1u << bits : 301, i;
        for (i = 0; i < values; i++) check_digit((enum digit_name)name, i);
        for (i = 8; i < bits; i++) {
            uint64_t power = (uint64_t)1 << i;
            check_digit((enum digit_name)name, power - 1);
            check_digit((enum digit_name)name, power);
            check_digit((enum digit_name)name, power + 1);
        }
    }
    expect("the digits are put back", memcmp(&now, &good, sizeof now) != 0, 0);
}

/* From the loaded state, and with a length that leaves room for every count. */
static void check_all_digits(void) {
    uint64_t length = get(now.state, LENGTH);
    check_digit(LENGTH, length - 1);
    check_digit(LENGTH, length + 1);
    check_digits();
    set(now.state, LENGTH, UINT64_MAX);
    check_digits();
    set(now.state, LENGTH, length);
}

static void flip(unsigned bit) { now.state[bit / 8] ^= (uint8_t)(1u << bit % 8); }

/* The clock and the digits alone, without the comparison of all buffers, since there are many pairs. */
static void check_two_bits(void) {
    uint8_t good[BIEKKARUL_STATE_LENGTH], flipped[BIEKKARUL_STATE_LENGTH];
    unsigned a, b, bits = 8 * BIEKKARUL_STATE_LENGTH;
    memcpy(good, now.state, sizeof good);
    for (a = 0; a < bits; a++) {
        for (b = a; b < bits; b++) {
            unsigned answer;
            flip(a);
            if (b != a) flip(b);
            memcpy(flipped, now.state, sizeof flipped);
            check_reading("one or two bits flipped, read");
            answer = clock_once();
            expect("one or two bits flipped", answer != REFUSED(BIEKKARUL_STATE_OUT_OF_RANGE),
                   (unsigned)could_be(flipped));
            if (BIEKKARUL_IS_REFUSED(answer))
                expect("a state with bits flipped", memcmp(now.state, flipped, sizeof flipped) != 0, 0);
            memcpy(now.state, good, sizeof good);
        }
    }
}

/* Under the mark, with PRG RAM and without: in house mode it is there whatever byte 10 says. */
static void check_marked_states(void) {
    static const unsigned chr_counts[MAPPERS] = {0, 2, 0, 4, 4};
    unsigned mapper, mode, byte10;
    for (mapper = NROM; mapper < MAPPERS; mapper++) {
        for (mode = BIEKKARUL_HOUSE; mode <= BIEKKARUL_BOARD; mode++) {
            for (byte10 = 0x00; byte10 <= 0x07; byte10 += 0x07) {
                start_marked(mapper * 16 + 1, 2, chr_counts[mapper], byte10, mode);
                expect("the loaded state could be, marked", (unsigned)could_be(now.state), 1);
                expect("the mark", (unsigned)get(now.state, NES2), 1);
                expect("PRG RAM", (unsigned)get(now.state, PRG_RAM), mode == BIEKKARUL_HOUSE || byte10 == 0x07);
                check_all_digits();
            }
            check_two_bits();
        }
    }
}

static void check_states(void) {
    static const unsigned chr_counts[MAPPERS] = {0, 2, 0, 4, 4};
    unsigned mapper, mode;
    expect("as many places as the header has", NUMBERS, BIEKKARUL_DIGITS);
    expect("the header's last place", BIEKKARUL_DIGIT_RAM_WRITES_DENIED + 1, BIEKKARUL_DIGITS);
    for (mapper = NROM; mapper < MAPPERS; mapper++) {
        for (mode = BIEKKARUL_HOUSE; mode <= BIEKKARUL_BOARD; mode++) {
            start(mapper * 16 + 1, 2, chr_counts[mapper], mode);
            expect("the loaded state could be", (unsigned)could_be(now.state), 1);
            expect("version", (unsigned)get(now.state, VERSION), 1);
            expect("mode", (unsigned)get(now.state, MODE), mode);
            expect("mapper", (unsigned)get(now.state, MAPPER), mapper);
            expect("header mirroring", (unsigned)get(now.state, HEADER_MIRRORING), 1);
            expect("mirroring", (unsigned)get(now.state, MIRRORING), 1);
            expect("no mark", (unsigned)get(now.state, NES2), 0);
            expect("PRG RAM", (unsigned)get(now.state, PRG_RAM), 1);
            expect("PRG count", (unsigned)get(now.state, PRG), 2);
            expect("CHR count", (unsigned)get(now.state, CHR), chr_counts[mapper]);
            expect("length", (unsigned)get(now.state, LENGTH), (unsigned)image_length);
            expect("MMC1 PRG mode", (unsigned)get(now.state, PRG_MODE1), mapper == MMC1 ? 3 : 0);
            expect("RAM enabled", (unsigned)get(now.state, RAM_ENABLED), 1);
            expect("RAM writes denied", (unsigned)get(now.state, RAM_DENIED), 0);
            check_all_digits();
            check_two_bits();
        }
    }
}

/* From MMC3 in board mode with its RAM locked by both marks, which no other board and no other mode may have. */
static void check_locked_states(void) {
    start(MMC3 * 16 + 1, 2, 4, BIEKKARUL_BOARD);
    expect("locked", write_at(0xA001, 0x40), 0);
    expect("the locked state could be", (unsigned)could_be(now.state), 1);
    check_all_digits();
    check_two_bits();
}

/* Lengths of the state and of the RAMs, and where 9 and 10 stand. */

static void check_wrong_lengths(void) {
    static const size_t states[3] = {0, BIEKKARUL_STATE_LENGTH - 1, BIEKKARUL_STATE_LENGTH + 1};
    static const size_t rams[3] = {0, BIEKKARUL_RAM_LENGTH - 1, BIEKKARUL_RAM_LENGTH + 1};
    static const size_t counts[3] = {0, BIEKKARUL_DIGITS - 1, BIEKKARUL_DIGITS + 1};
    const size_t state = BIEKKARUL_STATE_LENGTH, ram = BIEKKARUL_RAM_LENGTH, count = BIEKKARUL_DIGITS;
    const unsigned nine = REFUSED(BIEKKARUL_RAM_NOT_8K), ten = REFUSED(BIEKKARUL_STATE_OUT_OF_RANGE);
    uint64_t numbers[BIEKKARUL_DIGITS + 1];
    unsigned i;
    memset(numbers, 0xA5, sizeof numbers);
    start(NROM * 16, 1, 0, BIEKKARUL_HOUSE);
    keep();
    for (i = 0; i < 3; i++) {
        expect("read, state length", read_with(states[i], ram, ram, 0x8000), ten);
        expect("write, state length", write_with(states[i], ram, ram, 0, 1), ten);
        expect("clock, state length", biekkarul_clock(now.state, states[i]), ten);
        expect("digits, state length", biekkarul_digits(now.state, states[i], numbers, count), ten);
        expect("digits, count", biekkarul_digits(now.state, state, numbers, counts[i]), ten);
        expect("load, state length", load_with(BIEKKARUL_HOUSE, states[i], ram, ram), ten);
        expect("read, PRG RAM length", read_with(state, rams[i], ram, 0x8000), nine);
        expect("read, CHR RAM length", read_with(state, ram, rams[i], 0x8000), nine);
        expect("write, PRG RAM length", write_with(state, rams[i], ram, 0, 1), nine);
        expect("write, CHR RAM length", write_with(state, ram, rams[i], 0, 1), nine);
        expect("load, PRG RAM length", load_with(BIEKKARUL_HOUSE, state, rams[i], ram), nine);
        expect("load, CHR RAM length", load_with(BIEKKARUL_HOUSE, state, ram, rams[i]), nine);
        expect("read, 9 before 10", read_with(states[i], rams[i], ram, 0x8000), nine);
        expect("write, 9 before 10", write_with(states[i], ram, rams[i], 0, 1), nine);
        expect("load, 9 before 10", load_with(2, states[i], rams[i], ram), nine);
    }
    for (i = 0; i <= BIEKKARUL_DIGITS; i++) expect("digits untouched", numbers[i], NO_NUMBER);
    expect_untouched("refused lengths");
    expect("the board is still served", read_at(0x8000), data_at(0));
}

static void check_load_order(void) {
    const size_t state = BIEKKARUL_STATE_LENGTH, ram = BIEKKARUL_RAM_LENGTH;
    const unsigned ten = REFUSED(BIEKKARUL_STATE_OUT_OF_RANGE);
    make_image(0x5C, 3, 0);
    image[0] = 0;
    image_length = HEADER_LENGTH + PRG_BLOCK;
    keep();
    expect("load, 9 first", load_with(2, 0, ram, ram + 1), REFUSED(BIEKKARUL_RAM_NOT_8K));
    expect("load, length 39 before 3", load_with(BIEKKARUL_BOARD, state - 1, ram, ram), ten);
    expect("load, mode 2 before 3", load_with(2, state, ram, ram), ten);
    expect("load, mode 255 before 3", load_with(255, state, ram, ram), ten);
    expect("load, 3", load(BIEKKARUL_BOARD), REFUSED(BIEKKARUL_IMAGE_NOT_INES));
    image[0] = 0x4E;
    expect("load, 4 before 5", load(BIEKKARUL_BOARD), REFUSED(BIEKKARUL_MAPPER_NOT_TAKEN));
    image[6] = 0x0C;
    expect("load, 5 before 6", load(BIEKKARUL_BOARD), REFUSED(BIEKKARUL_TRAINER_OR_FOUR_SCREEN));
    image[6] = 0x00;
    expect("load, 6 before 7", load(BIEKKARUL_BOARD), REFUSED(BIEKKARUL_PRG_COUNT_NOT_TAKEN));
    image[6] = 0x20;
    expect("load, 7 before 8", load(BIEKKARUL_BOARD), REFUSED(BIEKKARUL_IMAGE_TOO_SHORT));
    image_length = HEADER_LENGTH + 3 * PRG_BLOCK;
    expect("load, 8", load(BIEKKARUL_BOARD), REFUSED(BIEKKARUL_COUNT_NO_POWER_OF_TWO));
    expect_untouched("refused loads");
    expect("load, house mode takes three blocks", load(BIEKKARUL_HOUSE), 0);
}

/* 16 "after 5 and before 6", and 4 by the longer number. House mode looks at none of bytes 8 to 11. */
static void check_load_order_under_the_mark(void) {
    const unsigned sixteen = REFUSED(BIEKKARUL_NES2_NOT_TAKEN);
    make_marked(0x0C, 3, 0, 0x77);
    image[8] = 0x11;
    image_length = HEADER_LENGTH + PRG_BLOCK;
    keep();
    expect("marked, 9 first", load_with(2, 0, BIEKKARUL_RAM_LENGTH, 0), REFUSED(BIEKKARUL_RAM_NOT_8K));
    expect("marked, 10 before 4", load(2), REFUSED(BIEKKARUL_STATE_OUT_OF_RANGE));
    expect("marked, mapper 256 before 5", load(BIEKKARUL_BOARD), REFUSED(BIEKKARUL_MAPPER_NOT_TAKEN));
    expect("marked, house mode has mapper 0", load(BIEKKARUL_HOUSE), REFUSED(BIEKKARUL_TRAINER_OR_FOUR_SCREEN));
    image[8] = 0x10;
    expect("marked, 5 before 16", load(BIEKKARUL_BOARD), REFUSED(BIEKKARUL_TRAINER_OR_FOUR_SCREEN));
    image[6] = 0x00;
    expect("marked, a submapper, before 6", load(BIEKKARUL_BOARD), sixteen);
    expect("marked, house mode has no 16", load(BIEKKARUL_HOUSE), REFUSED(BIEKKARUL_PRG_COUNT_NOT_TAKEN));
    image[8] = 0x00;
    expect("marked, byte 10, before 6", load(BIEKKARUL_BOARD), sixteen);
    image[10] = 0x00;
    image[9] = 0x0F;
    expect("marked, a PRG exponent, before 6", load(BIEKKARUL_BOARD), sixteen);
    image[9] = 0xF0;
    image[11] = 0x00;
    expect("marked, a CHR exponent, before 6", load(BIEKKARUL_BOARD), sixteen);
    image[9] = 0x00;
    expect("marked, no CHR RAM and no CHR ROM, before 6", load(BIEKKARUL_BOARD), sixteen);
    image[9] = 0x10;
    image[11] = 0x70;
    expect("marked, CHR RAM and 256 blocks of CHR ROM, before 6", load(BIEKKARUL_BOARD), sixteen);
    expect_untouched("loads refused by 16");
}

/* "6 to 8 the longer counts". */
static void check_longer_counts_in_order(void) {
    make_marked(0x00, 3, 0, 0x00);
    image_length = HEADER_LENGTH + PRG_BLOCK;
    keep();
    expect("marked, 6", load(BIEKKARUL_BOARD), REFUSED(BIEKKARUL_PRG_COUNT_NOT_TAKEN));
    image[6] = 0x20;
    image[4] = 0;
    image[9] = 0x01;
    expect("marked, 256 blocks, 7", load(BIEKKARUL_BOARD), REFUSED(BIEKKARUL_IMAGE_TOO_SHORT));
    expect("marked, house mode has no block", load(BIEKKARUL_HOUSE), REFUSED(BIEKKARUL_PRG_COUNT_NOT_TAKEN));
    image[4] = 3;
    image[9] = 0x00;
    image_length = HEADER_LENGTH + 3 * PRG_BLOCK;
    expect("marked, 8", load(BIEKKARUL_BOARD), REFUSED(BIEKKARUL_COUNT_NO_POWER_OF_TWO));
    expect_untouched("refused loads under the mark");
    expect("marked, house mode takes three blocks", load(BIEKKARUL_HOUSE), 0);
}

/* "in each byte the two nibbles are both 0, or one is 0 and the other 7", and byte 11 as the CHR count says. */
static void check_ram_shifts(void) {
    const unsigned sixteen = REFUSED(BIEKKARUL_NES2_NOT_TAKEN);
    unsigned byte, chr;
    for (byte = 0; byte < 256; byte++) {
        const int is_8k = byte == 0x07 || byte == 0x70;
        make_marked(NROM * 16, 1, 0, byte);
        expect("byte 10", load(BIEKKARUL_BOARD), byte == 0 || is_8k ? 0 : sixteen);
        for (chr = 0; chr < 2; chr++) {
            make_marked(NROM * 16, 1, chr, 0x07);
            image[11] = (uint8_t)byte;
            expect("byte 11", load(BIEKKARUL_BOARD), (chr == 0 ? is_8k : byte == 0) ? 0 : sixteen);
            expect("byte 11 in house mode", load(BIEKKARUL_HOUSE), 0);
            image[7] = 0x00;
            expect("byte 11 without the mark", load(BIEKKARUL_BOARD), 0);
        }
    }
}

/* Without PRG RAM 6000-7FFF reads 0 and ignores writes; both RAMs are lent, cleared and judged all the same. */
static void check_no_prg_ram(void) {
    static const unsigned mappers[2] = {MMC1, MMC3};
    const size_t state = BIEKKARUL_STATE_LENGTH, ram = BIEKKARUL_RAM_LENGTH;
    unsigned i;
    for (i = 0; i < 2; i++) {
        start_marked(mappers[i] * 16, 2, 0, 0x00, BIEKKARUL_BOARD);
        expect("PRG RAM is cleared all the same", now.prg_ram[0] + now.prg_ram[BIEKKARUL_RAM_LENGTH - 1], 0);
        memset(now.prg_ram, 0x5A, BIEKKARUL_RAM_LENGTH);
        keep();
        expect("no PRG RAM, read", read_at(0x6000), 0);
        expect("no PRG RAM, write", write_at(0x7FFF, 0x33), 0);
        expect("no PRG RAM, read again", read_at(0x7FFF), 0);
        expect_untouched("a write to no PRG RAM");
        expect("no PRG RAM, its length", read_with(state, ram - 1, ram, 0x6000), REFUSED(BIEKKARUL_RAM_NOT_8K));
        expect("no PRG RAM, CHR RAM is there", write_at(0x0000, 0x33), 0);
        expect("no PRG RAM, CHR RAM", now.chr_ram[0], 0x33);
        start_marked(mappers[i] * 16, 2, 0, 0x00, BIEKKARUL_HOUSE);
        expect("house mode has PRG RAM, write", write_at(0x7FFF, 0x33), 0);
        expect("house mode has PRG RAM, read", read_at(0x7FFF), 0x33);
    }
}

static void check_load_clears(void) {
    size_t i;
    unsigned sum = 0;
    start(MMC1 * 16, 2, 1, BIEKKARUL_HOUSE);
    for (i = 0; i < BIEKKARUL_RAM_LENGTH; i++) sum += now.prg_ram[i] + now.chr_ram[i];
    expect("both RAMs are cleared", sum, 0);
    expect("nothing past the state", now.state[BIEKKARUL_STATE_LENGTH], 0xA5);
    expect("nothing past PRG RAM", now.prg_ram[BIEKKARUL_RAM_LENGTH], 0xA5);
    expect("nothing past CHR RAM", now.chr_ram[BIEKKARUL_RAM_LENGTH], 0xA5);
}

static void check_header(void) {
    uint8_t bytes[16] = {0x4E, 0x45, 0x53, 0x1A, 4, 5, 6, 7, 8, 9, 10, 11, 12, 13, 14, 15};
    uint8_t fields[13], old[13];
    const unsigned ten = REFUSED(BIEKKARUL_STATE_OUT_OF_RANGE);
    unsigned i;
    memset(fields, 0xA5, sizeof fields);
    memcpy(old, fields, sizeof old);
    expect("header, 13 fields", biekkarul_header(bytes, 16, fields, 13), ten);
    expect("header, 11 fields", biekkarul_header(bytes, 16, fields, 11), ten);
    expect("header, no field, before 1", biekkarul_header(bytes, 0, fields, 0), ten);
    expect("header, 15 bytes", biekkarul_header(bytes, 15, fields, 12), REFUSED(BIEKKARUL_HEADER_TOO_SHORT));
    expect("header, no byte", biekkarul_header(bytes, 0, fields, 12), REFUSED(BIEKKARUL_HEADER_TOO_SHORT));
    for (i = 0; i < 4; i++) {
        bytes[i] ^= 1;
        expect("header, magic", biekkarul_header(bytes, 16, fields, 12), REFUSED(BIEKKARUL_HEADER_NOT_INES));
        expect("header, 1 before 2", biekkarul_header(bytes, 15, fields, 12),
               REFUSED(BIEKKARUL_HEADER_TOO_SHORT));
        bytes[i] ^= 1;
    }
    expect("header, fields untouched", memcmp(fields, old, sizeof fields) != 0, 0);
    expect("header", biekkarul_header(bytes, 16, fields, 12), 0);
    for (i = 0; i < 12; i++) expect("header, field", fields[i], i + 4);
    expect("header, nothing past the fields", fields[12], 0xA5);
}

/* Document 01's P lines. */

static void check_p1_to_p6(void) {
    make_image(0x00, 1, 0);
    image_length = 16399;
    expect("P1", load(BIEKKARUL_HOUSE), REFUSED(3));
    image_length = 16400;
    expect("P2", load(BIEKKARUL_HOUSE), 0);
    image[6] = 0x54;
    expect("P3", load(BIEKKARUL_HOUSE), REFUSED(4));
    image[6] = 0x08;
    expect("P4", load(BIEKKARUL_HOUSE), REFUSED(5));
    image[6] = 0x00;
    image[4] = 3;
    expect("P5", load(BIEKKARUL_HOUSE), REFUSED(6));
    make_image(UXROM * 16, 2, 0);
    image_length = 32783;
    expect("P6, one byte short", load(BIEKKARUL_HOUSE), REFUSED(7));
    image_length = 32784;
    expect("P6", load(BIEKKARUL_HOUSE), 0);
}

static void check_p7_and_p8(void) {
    static const unsigned control[5] = {1, 1, 0, 0, 1};
    unsigned i;
    start(MMC1 * 16 + 1, 2, 1, BIEKKARUL_HOUSE);
    for (i = 0; i < 4; i++) expect("P7, quiet", write_at(0x8000, control[i]), 0);
    expect("P7, notice", write_at(0x8000, control[4]), BIEKKARUL_HORIZONTAL);
    expect("P7, PRG mode", (unsigned)get(now.state, PRG_MODE1), 0);
    expect("P7, CHR mode", (unsigned)get(now.state, CHR_MODE1), 1);
    expect("P7, house keeps the header's mirroring", (unsigned)get(now.state, MIRRORING), 1);
    for (i = 0; i < 5; i++) write_at(0xE000, i == 0);
    expect("P8, PRG 1 before", (unsigned)get(now.state, PRG1), 1);
    for (i = 0; i < 4; i++) expect("P8, four bits", write_at(0xE000, 1), 0);
    expect("P8, count of four bits", (unsigned)get(now.state, SERIAL_COUNT), 4);
    expect("P8, value of four bits", (unsigned)get(now.state, SERIAL_VALUE), 0x1E);
    expect("P8, reset", write_at(0xE000, 0x80), 0);
    expect("P8, count after the reset", (unsigned)get(now.state, SERIAL_COUNT), 0);
    expect("P8, value after the reset", (unsigned)get(now.state, SERIAL_VALUE), 0);
    for (i = 0; i < 4; i++) write_at(0xE000, 0);
    expect("P8, no load yet", (unsigned)get(now.state, PRG1), 1);
    write_at(0xE000, 0);
    expect("P8, PRG 0", (unsigned)get(now.state, PRG1), 0);
}

/* MMC3 with this latch, the reload mark and IRQ enabled. */
static void arm(unsigned latch, unsigned mode) {
    start(MMC3 * 16, 1, 1, mode);
    expect("latch", write_at(0xC000, latch), 0);
    expect("reload", write_at(0xC001, 0), 0);
    expect("enable", write_at(0xE001, 0), 0);
}

/* Bit k - 1 of the answer is clock k's. */
static unsigned clocks(unsigned latch, unsigned count, unsigned mode) {
    unsigned k, yes = 0;
    arm(latch, mode);
    for (k = 0; k < count; k++) yes |= clock_once() << k;
    return yes;
}

static void check_p9_to_p12(void) {
    expect("P9", clocks(0, 3, BIEKKARUL_HOUSE), 0x6);
    expect("P9, board", clocks(0, 3, BIEKKARUL_BOARD), 0x7);
    expect("P10", clocks(2, 7, BIEKKARUL_HOUSE), 0x48);
    expect("P10, board", clocks(2, 7, BIEKKARUL_BOARD), 0x7C);
    start(UXROM * 16, 2, 0, BIEKKARUL_HOUSE);
    write_at(0x8000, 2);
    expect("P11", read_at(0x8000), REFUSED(11));
    start(UXROM * 16, 2, 0, BIEKKARUL_BOARD);
    write_at(0x8000, 2);
    expect("P11, board", read_at(0x8000), data_at(0));
    start(CNROM * 16, 1, 1, BIEKKARUL_HOUSE);
    expect("P12", read_at(0xBFFF), REFUSED(13));
    start(CNROM * 16, 1, 1, BIEKKARUL_BOARD);
    expect("P12, board", read_at(0xBFFF), data_at(16383));
}

/* MMC3's line (M-101). */

static unsigned line(void) { return (unsigned)get(now.state, IRQ_LINE); }

/* "With the line low at the start, latch n and no writes after reload and enable, it is up from clock n + 1 onward". */
static void check_every_latch(void) {
    unsigned latch, k;
    for (latch = 0; latch < 256; latch++) {
        arm(latch, BIEKKARUL_BOARD);
        for (k = 1; k < 2 * latch + 5; k++) {
            expect("the level at a clock", clock_once(), k >= latch + 1);
            expect("the line after it", line(), k >= latch + 1);
        }
    }
}

/* The line, raised by the first clock, is up until an even write to this address of E000-FFFF. */
static void check_acknowledge(unsigned even) {
    static const unsigned others[] = {0x0000, 0x6000, 0x8000, 0x9FFF, 0xA000, 0xBFFF, 0xC000, 0xDFFF, 0xE001, 0xFFFF};
    unsigned i;
    arm(0, BIEKKARUL_BOARD);
    expect("raised", clock_once(), 1);
    for (i = 0; i < sizeof others / sizeof *others; i++) {
        read_at(others[i]);
        write_at(others[i], 0);
        expect("a read and a write leave the line", line(), 1);
    }
    expect("a read leaves the line", read_at(even) < 256 && line(), 1);
    expect("acknowledged", write_at(even, 0xFF), 0);
    expect("lowered", line(), 0);
    expect("and disabled", (unsigned)get(now.state, IRQ_ENABLED), 0);
    expect("a disabled unit raises nothing", clock_once(), 0);
    expect("enabled", write_at(even + 1, 0xFF), 0);
    expect("which raises nothing", line(), 0);
    expect("raised again", clock_once(), 1);
}

/* No run of calls leaves the line up while IRQ is disabled, but an owner's state may say it. */
static void check_up_while_disabled(void) {
    start(MMC3 * 16, 1, 1, BIEKKARUL_BOARD);
    set(now.state, IRQ_LINE, 1);
    expect("up while disabled", clock_once(), 1);
    expect("enabled", write_at(0xE001, 0), 0);
    expect("up all the same", line(), 1);
    set(now.state, IRQ_ENABLED, 0);
    expect("acknowledged while disabled", write_at(0xE000, 0), 0);
    expect("low while disabled", clock_once(), 0);
    set(now.state, IRQ_LINE, 1);
    expect("a load", load(BIEKKARUL_BOARD), 0);
    expect("low at load", line(), 0);
}

/* House mode says yes at single clocks, and its line is low. */
static void check_house_line(void) {
    unsigned k;
    arm(1, BIEKKARUL_HOUSE);
    for (k = 1; k < 12; k++) {
        expect("a house clock", clock_once(), k >= 2 && (k - 1) % 2 == 0);
        expect("the line of house mode", line(), 0);
    }
}

static void check_line(void) {
    check_every_latch();
    check_acknowledge(0xE000);
    check_acknowledge(0xFFFE);
    check_up_while_disabled();
    check_house_line();
}

/* MMC3's RAM and its two marks (M-111). */

static unsigned enabled(void) { return (unsigned)get(now.state, RAM_ENABLED); }

static unsigned denied(void) { return (unsigned)get(now.state, RAM_DENIED); }

/* A setting of the two is bits 7 and 6 of the byte that makes it: 0 to 3. */
static void set_marks(uint8_t *state, unsigned setting) {
    set(state, RAM_ENABLED, setting / 2);
    set(state, RAM_DENIED, setting % 2);
}

/* Both ends of PRG RAM under these marks: what is read there, and what a write does. */
static void check_ram(unsigned is_enabled, unsigned is_denied) {
    static const unsigned ends[2] = {0x6000, 0x7FFF};
    unsigned k;
    for (k = 0; k < 2; k++) {
        uint8_t *byte = &now.prg_ram[ends[k] - 0x6000];
        *byte = 0x5A;
        keep();
        expect("a read of RAM", read_at(ends[k]), is_enabled ? 0x5A : 0);
        expect("a write to RAM is quiet", write_at(ends[k], 0x33), 0);
        expect("and is stored where RAM is open", *byte, is_enabled && !is_denied ? 0x33 : 0x5A);
        *byte = 0x5A;
        expect_untouched("but for that byte, a write to RAM");
    }
}

/* A write of any byte to an odd address in A000-BFFF sets both marks, whatever they were, and moves nothing else. */
static void check_marks_at(unsigned odd) {
    unsigned value, setting;
    write_at(0x8000, 0xC5); /* no other register is at 0, so that one which is cleared is seen */
    write_at(0x8001, 6);
    write_at(0xC000, 9);
    write_at(0xC001, 0);
    for (value = 0; value < 256; value++) {
        for (setting = 0; setting < 4; setting++) {
            set_marks(now.state, setting);
            keep();
            expect("the marks are set quietly", write_at(odd, value), 0);
            expect("enabled by bit 7", enabled(), value >> 7);
            expect("denied by bit 6", denied(), value >> 6 & 1);
            set_marks(before.state, value >> 6);
            expect_untouched("but for the marks, that write");
        }
        check_ram(enabled(), denied());
    }
}

/* Reads, clocks and writes to every other register, even addresses in A000-BFFF among them, leave the marks. */
static void check_marks_stay(unsigned setting) {
    static const unsigned others[] = {0x0000, 0x1FFF, 0x5FFF, 0x6000, 0x7FFF, 0x8000, 0x8001, 0x9FFF, 0xA000,
                                      0xBFFE, 0xC000, 0xC001, 0xDFFF, 0xE000, 0xE001, 0xFFFF};
    unsigned i, bits;
    write_at(0xA001, setting * 64);
    for (i = 0; i < sizeof others / sizeof *others; i++) {
        for (bits = 0; bits < 4; bits++) {
            read_at(others[i]);
            write_at(others[i], bits * 64);
            clock_once();
            expect("enabled as it was", enabled(), setting / 2);
            expect("denied as it was", denied(), setting % 2);
        }
    }
    read_at(0xA001);
    read_at(0xBFFF);
    expect("a read of the register sets no mark", 2 * enabled() + denied(), setting);
}

/* A byte of PRG RAM from before the lock is read after it; CHR RAM is not concerned; a load leaves RAM open. */
static void check_lock(void) {
    start(MMC3 * 16, 2, 0, BIEKKARUL_BOARD);
    expect("PRG RAM", write_at(0x6000, 0x2A), 0);
    expect("locked", write_at(0xA001, 0x00), 0);
    expect("locked, read", read_at(0x6000), 0);
    expect("locked, write", write_at(0x6000, 0x33), 0);
    expect("locked, CHR RAM is written", write_at(0x0000, 0x44), 0);
    expect("locked, CHR RAM is read", read_at(0x0000), 0x44);
    expect("denied", write_at(0xBFFF, 0xC0), 0);
    expect("denied, read", read_at(0x6000), 0x2A);
    expect("denied, write", write_at(0x6000, 0x33), 0);
    expect("open", write_at(0xB001, 0x80), 0);
    expect("the byte from before the lock", read_at(0x6000), 0x2A);
    expect("locked again", write_at(0xA001, 0x40), 0);
    expect("a load", load(BIEKKARUL_BOARD), 0);
    expect("enabled at load", enabled(), 1);
    expect("writable at load", denied(), 0);
}

/* Where the image has no PRG RAM the marks are set and change nothing. */
static void check_marks_of_no_ram(void) {
    unsigned setting;
    start_marked(MMC3 * 16, 2, 0, 0x00, BIEKKARUL_BOARD);
    memset(now.prg_ram, 0x5A, BIEKKARUL_RAM_LENGTH);
    for (setting = 0; setting < 4; setting++) {
        expect("without PRG RAM, a setting", write_at(0xA001, setting * 64), 0);
        expect("without PRG RAM, the marks", 2 * enabled() + denied(), setting);
        keep();
        expect("without PRG RAM, read", read_at(0x6000), 0);
        expect("without PRG RAM, write", write_at(0x7FFF, 0x33), 0);
        expect_untouched("a write to no PRG RAM");
        clock_once();
    }
}

/* In house mode, and on the other boards in both, no write leaves RAM another setting, and a state with one is none. */
static void check_marks_elsewhere(unsigned mapper, unsigned mode) {
    unsigned value, setting;
    start(mapper * 16, 2, 0, mode);
    for (value = 0; value < 256; value++) {
        write_at(0xA001, value);
        write_at(0xBFFF, value);
        expect("RAM stays enabled", enabled(), 1);
        expect("RAM stays writable", denied(), 0);
    }
    if (mapper == MMC1 || mapper == MMC3) check_ram(1, 0);
    for (setting = 0; setting < 4; setting++) {
        set_marks(now.state, setting);
        keep();
        expect("RAM's marks in a state", read_at(0x6000) == REFUSED(BIEKKARUL_STATE_OUT_OF_RANGE), setting != 2);
        expect_untouched("a read of that state");
    }
}

static void check_marks(void) {
    unsigned mapper, setting;
    start(MMC3 * 16, 2, 1, BIEKKARUL_BOARD);
    check_marks_at(0xA001);
    check_marks_at(0xAFFF);
    check_marks_at(0xB001);
    check_marks_at(0xBFFF);
    for (setting = 0; setting < 4; setting++) check_marks_stay(setting);
    check_lock();
    check_marks_of_no_ram();
    check_marks_elsewhere(MMC3, BIEKKARUL_HOUSE);
    for (mapper = NROM; mapper < MMC3; mapper++) {
        check_marks_elsewhere(mapper, BIEKKARUL_HOUSE);
        check_marks_elsewhere(mapper, BIEKKARUL_BOARD);
    }
}

static void check_house_refusals(void) {
    start(UXROM * 16, 2, 0, BIEKKARUL_HOUSE);
    expect("a bank past the data", write_at(0x8000, 255), BIEKKARUL_NO_NOTICE);
    keep();
    expect("11", read_at(0x8000), REFUSED(BIEKKARUL_BANK_PAST_DATA));
    expect("11, the last bank stays", read_at(0xC000), data_at(PRG_BLOCK));
    expect_untouched("11");
    start(NROM * 16, 1, 1, BIEKKARUL_HOUSE);
    keep();
    expect("12", write_at(0x1FFF, 1), REFUSED(BIEKKARUL_NO_CHR_RAM));
    expect_untouched("12");
    start(CNROM * 16, 2, 1, BIEKKARUL_HOUSE);
    keep();
    expect("13, read", read_at(0x2000), REFUSED(BIEKKARUL_NO_SUCH_PLACE));
    expect("13, write", write_at(0x7FFF, 1), REFUSED(BIEKKARUL_NO_SUCH_PLACE));
    expect_untouched("13");
    start(MMC3 * 16, 1, 1, BIEKKARUL_HOUSE);
    expect("enable", write_at(0xE001, 0), 0);
    keep();
    expect("14", write_at(0xE000, 0), REFUSED(BIEKKARUL_IRQ_PENDING));
    expect_untouched("14");
    expect("write PRG RAM", write_at(0x6001, 0x5A), 0);
    expect("PRG RAM", now.prg_ram[1], 0x5A);
    expect("read PRG RAM", read_at(0x6001), 0x5A);
}

static void check_notices(void) {
    static const unsigned letters[4] = {BIEKKARUL_LOWER, BIEKKARUL_UPPER, BIEKKARUL_VERTICAL,
                                        BIEKKARUL_HORIZONTAL};
    unsigned control, bit;
    start(MMC1 * 16, 2, 1, BIEKKARUL_BOARD);
    for (control = 0; control < 4; control++) {
        for (bit = 0; bit < 4; bit++) expect("quiet", write_at(0x8000, control >> bit & 1), 0);
        expect("notice", write_at(0x8000, 0), letters[control]);
    }
}

/* The names of the header are the numbers of document 01, and its answers are the library's. */
static void check_names(void) {
    static const unsigned refusals[14] = {
        BIEKKARUL_HEADER_TOO_SHORT, BIEKKARUL_HEADER_NOT_INES, BIEKKARUL_IMAGE_NOT_INES, BIEKKARUL_MAPPER_NOT_TAKEN,
        BIEKKARUL_TRAINER_OR_FOUR_SCREEN, BIEKKARUL_PRG_COUNT_NOT_TAKEN, BIEKKARUL_IMAGE_TOO_SHORT,
        BIEKKARUL_COUNT_NO_POWER_OF_TWO, BIEKKARUL_RAM_NOT_8K, BIEKKARUL_STATE_OUT_OF_RANGE, BIEKKARUL_BANK_PAST_DATA,
        BIEKKARUL_NO_CHR_RAM, BIEKKARUL_NO_SUCH_PLACE, BIEKKARUL_IRQ_PENDING};
    unsigned i;
    for (i = 0; i < 14; i++) expect("the number of a refusal", refusals[i], i + 1);
    expect("the number of NES 2.0's refusal", BIEKKARUL_NES2_NOT_TAKEN, 16);
    expect("a refusal", BIEKKARUL_IS_REFUSED(256), 1);
    expect("an answer", BIEKKARUL_IS_REFUSED(255), 0);
    expect("a refusal's number", BIEKKARUL_REFUSAL(256 + 14), 14);
    expect("an answer below what moved",
           BIEKKARUL_IS_REFUSED(BIEKKARUL_CHR_MOVED | BIEKKARUL_PRG_MOVED | BIEKKARUL_RAM_MOVED), 0);
    expect("the library's version", biekkarul_version(), BIEKKARUL_VERSION);
}

int main(void) {
    check_names();
    check_header();
    check_load_clears();
    check_load_order();
    check_load_order_under_the_mark();
    check_longer_counts_in_order();
    check_ram_shifts();
    check_no_prg_ram();
    check_wrong_lengths();
    check_p1_to_p6();
    check_p7_and_p8();
    check_p9_to_p12();
    check_line();
    check_marks();
    check_house_refusals();
    check_notices();
    check_states();
    check_locked_states();
    check_marked_states();
    printf("calls: %lu checks, %lu failed\n", checks, failures);
    return failures != 0;
}
