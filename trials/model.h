/*
 * The boards once more: document 01, and M-100, M-101, M-104 and M-111 of document 02, read a second time and written
 * plainly in C, with no eye to speed and none to the library's code. The trials hold the library's answers, its states and
 * both RAMs to it, and so do the tests of the wrapper for Rust (through play.c). Answers and digits are numbers as in
 * biekkarul.h.
 */
#ifndef TRIALS_MODEL_H
#define TRIALS_MODEL_H

#include "biekkarul.h"

#include <string.h>

#define HEADER_LENGTH 16u
#define PRG_BLOCK 16384u
#define CHR_BLOCK 8192u

enum mapper { NROM, MMC1, UXROM, CNROM, MMC3 };

#define REFUSED(number) (256u + (number))
#define LAST_OF(blocks) ((blocks) - 1)

struct model {
    unsigned board_mode, mapper, nes2, prg, chr; /* counts of 16 KB and 8 KB */
    unsigned prg_ram_there;                      /* M-100: "Without PRG RAM, which the board notes" */
    uint64_t image_length;
    unsigned header_mirroring, mirroring; /* letters */
    unsigned uxrom_bank, cnrom_bank;
    unsigned serial_count, serial_bits, mmc1_prg_mode, mmc1_chr_mode, chr_0, chr_1, mmc1_prg;
    unsigned selected, r[8], mmc3_prg_mode, mmc3_chr_mode;
    unsigned latch, counter, reload, enabled;
    unsigned line; /* M-101: 1 up, 0 low; "always low in house mode and on other boards" */
    unsigned ram_enabled, ram_denied; /* M-111: "Every board record gains the two marks" */
    uint8_t prg_ram[BIEKKARUL_RAM_LENGTH], chr_ram[BIEKKARUL_RAM_LENGTH];
};

/* Refusal 8: "no power of two", by M-104's "count of one bits". */
static unsigned one_bits(unsigned n) { return n == 0 ? 0 : n % 2 + one_bits(n / 2); }

static int is_power_of_two(unsigned n) { return one_bits(n) == 1; }

static unsigned low(unsigned byte) { return byte & 15; }

static unsigned high(unsigned byte) { return byte >> 4; }

static int is_ines(const uint8_t *image) { return !memcmp(image, "NES\x1A", 4); }

static int is_marked(const uint8_t *image) { return (image[7] & 0x0C) == 0x08; }

/* M-100: "In board mode, where byte 7 marks NES 2.0". Every other image is read as iNES says, whatever bytes 8 to 15 are. */
static int is_nes2(const uint8_t *image, unsigned board_mode) { return board_mode && is_marked(image); }

/* A number of iNES, and what a nibble of NES 2.0 adds to it. */
static unsigned extended(const uint8_t *image, unsigned board_mode, unsigned number, unsigned nibble) {
    return is_nes2(image, board_mode) ? number + 256 * nibble : number;
}

static unsigned mapper_of(const uint8_t *image, unsigned board_mode) {
    return extended(image, board_mode, (image[7] & 0xF0u) | image[6] >> 4, low(image[8]));
}

static unsigned prg_of(const uint8_t *image, unsigned board_mode) {
    return extended(image, board_mode, image[4], low(image[9]));
}

static unsigned chr_of(const uint8_t *image, unsigned board_mode) {
    return extended(image, board_mode, image[5], high(image[9]));
}

static int is_shift(unsigned nibble) { return nibble == 0 || nibble == 7; }

/* "the two nibbles are both 0, or one is 0 and the other 7" */
static int are_shifts(unsigned byte) {
    return is_shift(low(byte)) && is_shift(high(byte)) && low(byte) * high(byte) == 0;
}

/* What refusal 16 is for, in an image of NES 2.0 with this count of CHR blocks. */
static int has_what_is_not_taken(const uint8_t *image, unsigned chr) {
    int submapper = high(image[8]) != 0;
    int exponent = low(image[9]) == 15 || high(image[9]) == 15;
    int other_prg_ram = !are_shifts(image[10]);
    int other_chr_ram = !are_shifts(image[11]);
    /* "CHR RAM is present exactly when the CHR count is 0, and byte 11 has to say the same" */
    int says_otherwise = (chr == 0) != (image[11] != 0);
    return submapper || exponent || other_prg_ram || other_chr_ram || says_otherwise;
}

static int is_not_taken(const uint8_t *image, unsigned board_mode) {
    return is_nes2(image, board_mode) && has_what_is_not_taken(image, chr_of(image, board_mode));
}

static int is_bad_prg(unsigned mapper, unsigned prg) {
    return prg == 0 || (prg > 2 && (mapper == NROM || mapper == CNROM));
}

static int are_no_powers(unsigned prg, unsigned chr) {
    return !is_power_of_two(prg) || (chr != 0 && !is_power_of_two(chr));
}

static size_t needed_length(unsigned prg, unsigned chr) {
    return HEADER_LENGTH + PRG_BLOCK * (size_t)prg + CHR_BLOCK * (size_t)chr;
}

/* What a load answers, lengths of the lent buffers being right: "Order in load: 3, 4, 5, 6, 7, 8", and 16 "after 5". */
static unsigned load_answer(const uint8_t *image, size_t length, unsigned board_mode) {
    unsigned mapper, prg, chr;
    if (length < 16400 || !is_ines(image)) return REFUSED(3);
    mapper = mapper_of(image, board_mode);
    prg = prg_of(image, board_mode);
    chr = chr_of(image, board_mode);
    if (mapper > 4) return REFUSED(4);
    if (image[6] & 0x0C) return REFUSED(5);
    if (is_not_taken(image, board_mode)) return REFUSED(16);
    if (is_bad_prg(mapper, prg)) return REFUSED(6);
    if (length < needed_length(prg, chr)) return REFUSED(7);
    if (board_mode && are_no_powers(prg, chr)) return REFUSED(8);
    return 0;
}

/* What is refused in every call of a loaded board, 0 where nothing is: "In read and write: 9, 10". */
static inline unsigned refused_first(int rams_right, int state_right, int other_image) {
    if (!rams_right) return REFUSED(9);
    if (!state_right) return REFUSED(10);
    if (other_image) return REFUSED(10);
    return 0;
}

static void model_load(struct model *m, const uint8_t *image, size_t length, unsigned board_mode) {
    memset(m, 0, sizeof *m);
    m->board_mode = board_mode;
    m->mapper = mapper_of(image, board_mode);
    m->nes2 = is_marked(image);
    m->prg = prg_of(image, board_mode);
    m->chr = chr_of(image, board_mode);
    m->prg_ram_there = !is_nes2(image, board_mode) || image[10] != 0;
    m->image_length = length;
    m->header_mirroring = m->mirroring = image[6] & 1 ? BIEKKARUL_VERTICAL : BIEKKARUL_HORIZONTAL;
    if (m->mapper == MMC1) m->mmc1_prg_mode = 3;
    m->ram_enabled = 1; /* M-111: "We start it enabled and writable" */
}

/* Where the bank of a number starts in data of a length: house refuses a bank past the data, the board takes it modulo. */
static int bank_start(const struct model *m, unsigned bank, unsigned size, size_t data, size_t *start) {
    if (m->board_mode) bank %= (unsigned)(data / size);
    *start = (size_t)bank * size;
    return *start + size <= data;
}

static unsigned prg_byte(const struct model *m, const uint8_t *image, unsigned size, unsigned bank, unsigned at) {
    size_t start;
    if (!bank_start(m, bank, size, PRG_BLOCK * (size_t)m->prg, &start)) return REFUSED(11);
    return image[HEADER_LENGTH + start + at];
}

/* CHR count 0 means 8,192 bytes of CHR RAM. */
static size_t chr_length_of(const struct model *m) { return CHR_BLOCK * (size_t)(m->chr ? m->chr : 1); }

static unsigned chr_byte(const struct model *m, const uint8_t *image, unsigned size, unsigned bank, unsigned at) {
    size_t start;
    if (!bank_start(m, bank, size, chr_length_of(m), &start)) return REFUSED(11);
    return m->chr ? image[HEADER_LENGTH + PRG_BLOCK * (size_t)m->prg + start + at] : m->chr_ram[start + at];
}

/* The CHR bank that a PPU address shows, and its size. */
static unsigned chr_bank(const struct model *m, unsigned address, unsigned *size) {
    static const unsigned choices[2][8] = {{0, 0, 1, 1, 2, 3, 4, 5}, {2, 3, 4, 5, 0, 0, 1, 1}};
    unsigned half = address / 0x1000, kilobyte = address / 0x400, low;
    switch (m->mapper) {
    case CNROM:
        *size = 0x2000;
        return m->cnrom_bank;
    case MMC1:
        *size = 0x1000;
        if (m->mmc1_chr_mode) return half ? m->chr_1 : m->chr_0;
        low = m->board_mode ? m->chr_0 & ~1u : m->chr_0;
        return low + half;
    case MMC3:
        *size = 0x400;
        low = choices[m->mmc3_chr_mode][kilobyte];
        return low > 1 ? m->r[low] : m->r[low] + kilobyte % 2;
    default:
        *size = 0x2000;
        return 0;
    }
}

static unsigned mmc1_prg_bank(const struct model *m, unsigned upper) {
    unsigned first = m->board_mode ? m->mmc1_prg & ~1u : m->mmc1_prg / 2;
    switch (m->mmc1_prg_mode) {
    case 2: return upper ? m->mmc1_prg : 0;
    case 3: return upper ? LAST_OF(m->prg) : m->mmc1_prg;
    default: return first + upper;
    }
}

static unsigned mmc3_prg_bank(const struct model *m, unsigned window) {
    unsigned last = LAST_OF(2 * m->prg);
    if (window == 3) return last;
    if (window == 1) return m->r[7];
    return (window == 0) == (m->mmc3_prg_mode == 0) ? m->r[6] : last - 1;
}

/* The PRG bank that an address shows, and its size. */
static unsigned prg_bank(const struct model *m, unsigned address, unsigned *size) {
    unsigned upper = address >= 0xC000;
    *size = m->mapper == MMC3 ? 0x2000 : PRG_BLOCK;
    switch (m->mapper) {
    case MMC1: return mmc1_prg_bank(m, upper);
    case UXROM: return upper ? LAST_OF(m->prg) : m->uxrom_bank;
    case MMC3: return mmc3_prg_bank(m, address / 0x2000 % 4);
    default: return upper ? LAST_OF(m->prg) : 0;
    }
}

/* House CNROM: 2000-7FFF, and with one PRG block 8000-BFFF. */
static int no_such_place(const struct model *m, unsigned address) {
    if (m->mapper != CNROM || m->board_mode || address < 0x2000) return 0;
    return address < 0x8000 || (address < 0xC000 && m->prg == 1);
}

/* Two boards show PRG RAM at 6000-7FFF, where the image says that there is any. */
static int is_ram_board(const struct model *m) { return m->mapper == MMC1 || m->mapper == MMC3; }

static int has_prg_ram(const struct model *m) { return m->prg_ram_there && is_ram_board(m); }

/* M-111: "Disabled RAM reads 0; disabled or denied RAM ignores writes." */
static int shows_prg_ram(const struct model *m) { return has_prg_ram(m) && m->ram_enabled; }

static int stores_prg_ram(const struct model *m) { return shows_prg_ram(m) && !m->ram_denied; }

static unsigned model_read(const struct model *m, const uint8_t *image, unsigned address) {
    unsigned bank, size;
    if (no_such_place(m, address)) return REFUSED(13);
    if (address >= 0x8000) {
        bank = prg_bank(m, address, &size);
        return prg_byte(m, image, size, bank, address % size);
    }
    if (address < 0x2000) {
        bank = chr_bank(m, address, &size);
        return chr_byte(m, image, size, bank, address % size);
    }
    return address >= 0x6000 && shows_prg_ram(m) ? m->prg_ram[address - 0x6000] : 0;
}

static unsigned notice(struct model *m, unsigned mirroring) {
    unsigned against = m->board_mode ? m->mirroring : m->header_mirroring;
    if (m->board_mode) m->mirroring = mirroring;
    return mirroring == against ? 0 : mirroring;
}

static unsigned mmc1_register(struct model *m, unsigned address, unsigned bits) {
    static const unsigned screens[4] = {BIEKKARUL_LOWER, BIEKKARUL_UPPER, BIEKKARUL_VERTICAL, BIEKKARUL_HORIZONTAL};
    int whole = m->board_mode || m->mmc1_chr_mode;
    switch (address / 0x2000) {
    case 4:
        m->mmc1_prg_mode = bits / 4 % 4;
        m->mmc1_chr_mode = bits / 16;
        return notice(m, screens[bits % 4]);
    case 5: m->chr_0 = whole ? bits : bits / 2; break;
    case 6: m->chr_1 = whole ? bits : m->chr_1; break;
    default: m->mmc1_prg = bits % 16;
    }
    return 0;
}

static unsigned mmc1_serial(struct model *m, unsigned address, unsigned value) {
    unsigned bits;
    if (value & 0x80) {
        m->serial_count = m->serial_bits = 0;
        if (m->board_mode) m->mmc1_prg_mode = 3;
        return 0;
    }
    m->serial_bits |= (value & 1) << m->serial_count++;
    if (m->serial_count < 5) return 0;
    bits = m->serial_bits;
    m->serial_count = m->serial_bits = 0;
    return mmc1_register(m, address, bits);
}

/* M-111: "In board mode an odd write to A000-BFFF sets" both marks. In house mode "they stay". */
static void mark_ram(struct model *m, unsigned enabled, unsigned denied) {
    if (!m->board_mode) return;
    m->ram_enabled = enabled;
    m->ram_denied = denied;
}

static unsigned mmc3_register(struct model *m, unsigned address, unsigned value) {
    unsigned odd = address % 2;
    switch (address / 0x2000 * 2 + odd) {
    case 8:
        m->selected = value % 8;
        m->mmc3_prg_mode = value / 64 % 2;
        m->mmc3_chr_mode = value / 128;
        break;
    case 9: m->r[m->selected] = m->selected < 2 ? value & ~1u : m->selected > 5 ? value & 0x3F : value; break;
    case 10: return notice(m, value & 1 ? BIEKKARUL_HORIZONTAL : BIEKKARUL_VERTICAL);
    case 11: mark_ram(m, value / 128, value / 64 % 2); break; /* "bit 7, RAM enabled, and bit 6, writes denied" */
    case 12: m->latch = value; break;
    case 13: m->reload = 1; break;
    case 14:
        if (!m->board_mode && m->enabled && m->counter <= 1) return REFUSED(14);
        m->enabled = m->line = 0; /* M-101: "lowers it and disables" */
        break;
    case 15: m->enabled = 1; break; /* M-101: "an odd write doesn't lower it" */
    }
    return 0;
}

static unsigned register_write(struct model *m, unsigned address, unsigned value) {
    switch (m->mapper) {
    case MMC1: return mmc1_serial(m, address, value);
    case MMC3: return mmc3_register(m, address, value);
    case UXROM: m->uxrom_bank = value; break;
    case CNROM: m->cnrom_bank = value % 4; break;
    }
    return 0;
}

static unsigned ppu_write(struct model *m, unsigned address, unsigned value) {
    unsigned bank, size;
    size_t start;
    if (m->board_mode) {
        bank = chr_bank(m, address, &size);
        if (m->chr == 0 && bank_start(m, bank, size, CHR_BLOCK, &start)) m->chr_ram[start + address % size] = (uint8_t)value;
        return 0;
    }
    if (m->mapper == MMC3) return 0;
    if (m->mapper != CNROM && m->chr != 0) return REFUSED(12);
    (m->mapper == CNROM ? m->prg_ram : m->chr_ram)[address] = (uint8_t)value;
    return 0;
}

static unsigned model_write(struct model *m, unsigned address, unsigned value) {
    if (address >= 0x8000) return register_write(m, address, value);
    if (address < 0x2000) return ppu_write(m, address, value);
    if (m->mapper == CNROM && !m->board_mode) return REFUSED(13);
    if (address >= 0x6000 && stores_prg_ram(m)) m->prg_ram[address - 0x6000] = (uint8_t)value;
    return 0;
}

/* M-101, board mode: "the line, once raised, stays raised", and a clock "answers the level of the line". */
static unsigned model_clock(struct model *m) {
    unsigned at_zero = m->counter == 0, marked = m->reload;
    if (m->mapper != MMC3) return 0;
    m->counter = marked || at_zero ? m->latch : m->counter - 1;
    m->reload = 0;
    if (!m->board_mode) return !marked && at_zero && m->enabled;
    if (m->counter == 0 && m->enabled) m->line = 1;
    return m->line;
}

/*
 * Pages, from docs/ABI.md and the windows of document 01: where the kilobyte that begins at an address is read from,
 * and where a write to it goes. They stand beside the reads and writes above and are held to them.
 */
#define PAGE(kind, offset) (((kind) << 28) + (unsigned)(offset))
#define REFUSED_PAGE(number) PAGE(4u, number)
#define NOWHERE_PAGE PAGE(3u, 0)
#define CALL_PAGE PAGE(5u, 0)

static inline unsigned prg_page(const struct model *m, unsigned address) {
    unsigned size, bank = prg_bank(m, address, &size);
    size_t start;
    if (!bank_start(m, bank, size, PRG_BLOCK * (size_t)m->prg, &start)) return REFUSED_PAGE(11);
    return PAGE(0u, HEADER_LENGTH + start + address % size);
}

static inline unsigned chr_page(const struct model *m, unsigned address) {
    unsigned size, bank = chr_bank(m, address, &size);
    size_t start;
    if (!bank_start(m, bank, size, chr_length_of(m), &start)) return REFUSED_PAGE(11);
    if (m->chr == 0) return PAGE(2u, start + address % size);
    return PAGE(0u, HEADER_LENGTH + PRG_BLOCK * (size_t)m->prg + start + address % size);
}

static inline unsigned middle_page(unsigned address, int prg_ram) {
    return address >= 0x6000 && prg_ram ? PAGE(1u, address - 0x6000) : NOWHERE_PAGE;
}

static inline unsigned model_read_page(const struct model *m, unsigned page) {
    unsigned address = page * 1024;
    if (no_such_place(m, address)) return REFUSED_PAGE(13);
    if (address >= 0x8000) return prg_page(m, address);
    return address < 0x2000 ? chr_page(m, address) : middle_page(address, shows_prg_ram(m));
}

/* House mode stores at the address itself, whatever bank is shown; CNROM in its PRG RAM. */
static inline unsigned chr_write_page(const struct model *m, unsigned address) {
    if (m->board_mode) return m->chr == 0 ? chr_page(m, address) : NOWHERE_PAGE;
    if (m->mapper == MMC3) return NOWHERE_PAGE;
    if (m->mapper == CNROM) return PAGE(1u, address);
    return m->chr == 0 ? PAGE(2u, address) : REFUSED_PAGE(12);
}

static inline unsigned model_write_page(const struct model *m, unsigned page) {
    unsigned address = page * 1024;
    if (address >= 0x8000) return m->mapper == NROM ? NOWHERE_PAGE : CALL_PAGE;
    if (no_such_place(m, address)) return REFUSED_PAGE(13);
    return address < 0x2000 ? chr_write_page(m, address) : middle_page(address, stores_prg_ram(m));
}

/* The call for pages: the numbers of so many of reads and of writes, or 10 and nothing written. */
static inline unsigned model_pages(const struct model *m, int state_right, unsigned first, uint32_t *reads,
                                   size_t reads_length, uint32_t *writes, size_t writes_length) {
    int told = state_right && first + reads_length <= 64 && first + writes_length <= 64;
    unsigned i;
    for (i = 0; told && i < reads_length; i++) reads[i] = model_read_page(m, first + i);
    for (i = 0; told && i < writes_length; i++) writes[i] = model_write_page(m, first + i);
    return told ? 0 : REFUSED(10);
}

/* Whether a register that 0000-1FFF hangs on holds another value than before; one of 8000-FFFF; a mark of 6000-7FFF. */
static inline int chr_moved(const struct model *was, const struct model *is) {
    int mmc1 = was->mmc1_chr_mode != is->mmc1_chr_mode || was->chr_0 != is->chr_0 || was->chr_1 != is->chr_1;
    int mmc3 = was->mmc3_chr_mode != is->mmc3_chr_mode || memcmp(was->r, is->r, 6 * sizeof *is->r);
    return mmc1 || mmc3 || was->cnrom_bank != is->cnrom_bank;
}

static inline int prg_moved(const struct model *was, const struct model *is) {
    int mmc1 = was->mmc1_prg_mode != is->mmc1_prg_mode || was->mmc1_prg != is->mmc1_prg;
    int mmc3 = was->mmc3_prg_mode != is->mmc3_prg_mode || was->r[6] != is->r[6] || was->r[7] != is->r[7];
    return mmc1 || mmc3 || was->uxrom_bank != is->uxrom_bank;
}

static inline int ram_moved(const struct model *was, const struct model *is) {
    return was->ram_enabled != is->ram_enabled || was->ram_denied != is->ram_denied;
}

/* What a write that takes a board from one to the other has above its answer. */
static inline unsigned moved_bits(const struct model *was, const struct model *is) {
    unsigned chr = chr_moved(was, is) ? 0x10000u : 0, prg = prg_moved(was, is) ? 0x20000u : 0;
    unsigned ram = ram_moved(was, is) ? 0x40000u : 0;
    return chr + prg + ram;
}

/* A mirroring's digit is the place of its letter. */
#define MIRRORINGS "HVUL"

static inline unsigned mirroring_digit(unsigned letter) {
    const char *letters = MIRRORINGS;
    return (unsigned)(strchr(letters, (int)letter) - letters);
}

/* The field that is a digit as it stands; no field for a digit that is fixed, or that has another form here. */
static inline unsigned *field_of(struct model *m, unsigned digit) {
    if (digit >= BIEKKARUL_DIGIT_MMC3_R0 && digit <= BIEKKARUL_DIGIT_MMC3_R7)
        return &m->r[digit - BIEKKARUL_DIGIT_MMC3_R0];
    switch (digit) {
    case BIEKKARUL_DIGIT_MAPPER: return &m->mapper;
    case BIEKKARUL_DIGIT_MODE: return &m->board_mode;
    case BIEKKARUL_DIGIT_NES2: return &m->nes2;
    case BIEKKARUL_DIGIT_PRG_RAM: return &m->prg_ram_there;
    case BIEKKARUL_DIGIT_PRG_COUNT: return &m->prg;
    case BIEKKARUL_DIGIT_CHR_COUNT: return &m->chr;
    case BIEKKARUL_DIGIT_UXROM_BANK: return &m->uxrom_bank;
    case BIEKKARUL_DIGIT_CNROM_BANK: return &m->cnrom_bank;
    case BIEKKARUL_DIGIT_MMC1_SERIAL_COUNT: return &m->serial_count;
    case BIEKKARUL_DIGIT_MMC1_PRG_MODE: return &m->mmc1_prg_mode;
    case BIEKKARUL_DIGIT_MMC1_CHR_MODE: return &m->mmc1_chr_mode;
    case BIEKKARUL_DIGIT_MMC1_CHR_0: return &m->chr_0;
    case BIEKKARUL_DIGIT_MMC1_CHR_1: return &m->chr_1;
    case BIEKKARUL_DIGIT_MMC1_PRG: return &m->mmc1_prg;
    case BIEKKARUL_DIGIT_MMC3_LATCH: return &m->latch;
    case BIEKKARUL_DIGIT_MMC3_COUNTER: return &m->counter;
    case BIEKKARUL_DIGIT_MMC3_SELECT: return &m->selected;
    case BIEKKARUL_DIGIT_MMC3_PRG_MODE: return &m->mmc3_prg_mode;
    case BIEKKARUL_DIGIT_MMC3_CHR_MODE: return &m->mmc3_chr_mode;
    case BIEKKARUL_DIGIT_MMC3_IRQ_ENABLED: return &m->enabled;
    case BIEKKARUL_DIGIT_MMC3_RELOAD: return &m->reload;
    case BIEKKARUL_DIGIT_MMC3_IRQ_LINE: return &m->line;
    case BIEKKARUL_DIGIT_RAM_ENABLED: return &m->ram_enabled;
    case BIEKKARUL_DIGIT_RAM_WRITES_DENIED: return &m->ram_denied;
    default: return NULL;
    }
}

/* The state as digits. "A field that the board doesn't use holds its start value". */
static inline void model_digits(struct model *m, uint64_t *digits) {
    unsigned k;
    for (k = 0; k < BIEKKARUL_DIGITS; k++) digits[k] = field_of(m, k) ? *field_of(m, k) : 0;
    digits[BIEKKARUL_DIGIT_VERSION] = BIEKKARUL_STATE_VERSION;
    digits[BIEKKARUL_DIGIT_HEADER_MIRRORING] = mirroring_digit(m->header_mirroring);
    digits[BIEKKARUL_DIGIT_MIRRORING] = mirroring_digit(m->mirroring);
    digits[BIEKKARUL_DIGIT_IMAGE_LENGTH] = m->image_length;
    /* the bits that have entered, from bit 4 down */
    digits[BIEKKARUL_DIGIT_MMC1_SERIAL_VALUE] = m->serial_bits << (5 - m->serial_count);
}

/* The other way: the board of a state that has these digits. RAMs stay as they are. */
static inline void model_take_up(struct model *m, const uint64_t *digits) {
    unsigned k;
    for (k = 0; k < BIEKKARUL_DIGITS; k++)
        if (field_of(m, k)) *field_of(m, k) = (unsigned)digits[k];
    m->header_mirroring = (unsigned)MIRRORINGS[digits[BIEKKARUL_DIGIT_HEADER_MIRRORING]];
    m->mirroring = (unsigned)MIRRORINGS[digits[BIEKKARUL_DIGIT_MIRRORING]];
    m->image_length = digits[BIEKKARUL_DIGIT_IMAGE_LENGTH];
    m->serial_bits = (unsigned)digits[BIEKKARUL_DIGIT_MMC1_SERIAL_VALUE] >> (5 - m->serial_count);
}

/*
 * The bytes of a state, from docs/ABI.md: five words of 64 bits, little-endian, each a row of digits, the first one lowest.
 * Whether they are a board's is judged here from "State ranges", M-100, M-101 and M-111, without the library.
 */
static const unsigned digit_bits[5][13] = {
    {8, 8, 1, 1, 2, 2, 2, 12, 12},
    {64},
    {8, 2, 3, 2, 2, 3, 5, 2, 1, 5, 5, 4},
    {8, 8, 8, 8, 8, 8, 8, 8},
    {8, 8, 3, 1, 1, 1, 1, 1, 1, 1},
};

static inline uint64_t word_at(const uint8_t *bytes) {
    uint64_t word = 0;
    unsigned k;
    for (k = 8; k > 0; k--) word = word << 8 | bytes[k - 1];
    return word;
}

/* Reads the digits; whether nothing stands above the last one of a word. */
static inline int read_words(const uint8_t *state, uint64_t *digits) {
    unsigned row, bits, k;
    int nothing_above = 1;
    for (row = 0; row < 5; row++) {
        uint64_t word = word_at(state + 8 * row);
        for (k = 0; (bits = digit_bits[row][k]) != 0; k++) {
            *digits++ = bits == 64 ? word : word % (UINT64_C(1) << bits);
            word = bits == 64 ? 0 : word >> bits;
        }
        nothing_above &= word == 0;
    }
    return nothing_above;
}

/* "Mapper, counts, length .. as a load could leave them", and PRG RAM, "which .. 10 covers". */
static inline int is_loadable(const uint64_t *d) {
    unsigned board_mode = d[BIEKKARUL_DIGIT_MODE] == BIEKKARUL_BOARD, ram = (unsigned)d[BIEKKARUL_DIGIT_PRG_RAM];
    unsigned nes2 = board_mode && d[BIEKKARUL_DIGIT_NES2];
    unsigned mapper = (unsigned)d[BIEKKARUL_DIGIT_MAPPER];
    unsigned prg = (unsigned)d[BIEKKARUL_DIGIT_PRG_COUNT], chr = (unsigned)d[BIEKKARUL_DIGIT_CHR_COUNT];
    if (mapper > 4 || is_bad_prg(mapper, prg)) return 0;
    if (board_mode && are_no_powers(prg, chr)) return 0;
    if (prg > 255 && !nes2) return 0;
    if (chr > 255 && !nes2) return 0;
    if (ram == 0 && !nes2) return 0;
    return ram <= 1 && d[BIEKKARUL_DIGIT_IMAGE_LENGTH] >= needed_length(prg, chr);
}

/* "Current mirroring equals the header's, except in board mode: any of the four on MMC1, horizontal or vertical on MMC3" */
static inline int is_mirrored(const uint64_t *d) {
    uint64_t headers = d[BIEKKARUL_DIGIT_HEADER_MIRRORING], current = d[BIEKKARUL_DIGIT_MIRRORING];
    int board_mode = d[BIEKKARUL_DIGIT_MODE] == BIEKKARUL_BOARD;
    if (headers > 1) return 0;
    if (board_mode && d[BIEKKARUL_DIGIT_MAPPER] == MMC1) return 1;
    if (board_mode && d[BIEKKARUL_DIGIT_MAPPER] == MMC3) return current <= 1;
    return current == headers;
}

/* M-101, of board mode: "it may be up on MMC3 here, enabled or not". */
static inline int line_may_be_up(const uint64_t *d) {
    return d[BIEKKARUL_DIGIT_MODE] == BIEKKARUL_BOARD && d[BIEKKARUL_DIGIT_MAPPER] == MMC3;
}

/* M-111: "on the other boards and in house mode they stay at enabled and writable" */
static inline int ram_stays_open(const uint64_t *d) {
    return d[BIEKKARUL_DIGIT_MAPPER] != MMC3 || d[BIEKKARUL_DIGIT_MODE] == BIEKKARUL_HOUSE;
}

/* Whether a digit of words 2 to 4 is this board's; the others hold their start value. */
static inline int is_used(const uint64_t *d, unsigned digit) {
    if (digit == BIEKKARUL_DIGIT_MMC3_IRQ_LINE) return line_may_be_up(d);
    if (digit == BIEKKARUL_DIGIT_RAM_ENABLED || digit == BIEKKARUL_DIGIT_RAM_WRITES_DENIED) return !ram_stays_open(d);
    switch (d[BIEKKARUL_DIGIT_MAPPER]) {
    case UXROM: return digit == BIEKKARUL_DIGIT_UXROM_BANK;
    case CNROM: return digit == BIEKKARUL_DIGIT_CNROM_BANK;
    case MMC1: return digit >= BIEKKARUL_DIGIT_MMC1_SERIAL_COUNT && digit <= BIEKKARUL_DIGIT_MMC1_PRG;
    case MMC3: return digit >= BIEKKARUL_DIGIT_MMC3_R0 && digit <= BIEKKARUL_DIGIT_MMC3_RELOAD;
    default: return 0;
    }
}

/* "serial count 0-4, serial value .. a multiple of 2^(5 - count)"; "R0, R1 even; R6, R7 up to 63"; the others fit any digit. */
static inline int are_registers(const uint64_t *d) {
    unsigned k;
    for (k = BIEKKARUL_DIGIT_UXROM_BANK; k < BIEKKARUL_DIGITS; k++)
        if (!is_used(d, k) && d[k] != (k == BIEKKARUL_DIGIT_RAM_ENABLED)) return 0;
    if (d[BIEKKARUL_DIGIT_MMC1_SERIAL_COUNT] > 4) return 0;
    if (d[BIEKKARUL_DIGIT_MMC1_SERIAL_VALUE] % (32u >> d[BIEKKARUL_DIGIT_MMC1_SERIAL_COUNT]) != 0) return 0;
    if (d[BIEKKARUL_DIGIT_MMC3_R0] % 2 != 0 || d[BIEKKARUL_DIGIT_MMC3_R0 + 1] % 2 != 0) return 0;
    return d[BIEKKARUL_DIGIT_MMC3_R7 - 1] <= 63 && d[BIEKKARUL_DIGIT_MMC3_R7] <= 63;
}

/* Whether the bytes of a state are a board's, and its digits. */
static inline int model_judges(const uint8_t *state, uint64_t *digits) {
    int nothing_above = read_words(state, digits);
    return nothing_above && digits[BIEKKARUL_DIGIT_VERSION] == BIEKKARUL_STATE_VERSION && is_loadable(digits) &&
           is_mirrored(digits) && are_registers(digits);
}

#endif
