/*
 * Proved NES cartridge boards: the functions of the static library libbiekkarul.a (Linux on x86-64 or Arm).
 * docs/ABI.md has the layout of the state and the rules in full. For C99, C11 and C++.
 *
 * Every lent buffer is a pointer and a length. A pointer is not null, also where the length is 0, and is
 * good for that many bytes (of digits and of pages: for that many numbers, where a uint64_t or a uint32_t may
 * stand); a buffer that is not const must overlap with no other buffer of the call; the image of a read or write
 * is the one loaded. That is all that a caller owes: every length, every byte, every mode and every address is
 * taken.
 *
 * Every answer is a number below 256, or 256 + N for refusal N; biekkarul_write_moved has three bits above it.
 * After a refusal every lent buffer holds what it held. No function keeps a pointer or has a state of its own, so
 * calls on different boards may run on different threads.
 */
#ifndef BIEKKARUL_H
#define BIEKKARUL_H

#include <stddef.h>
#include <stdint.h>

#ifdef __cplusplus
extern "C" {
#endif

/* The version of the calls that this header declares; biekkarul_version() answers the library's. */
#define BIEKKARUL_VERSION 5

/* Lengths of the lent buffers, in bytes. */
#define BIEKKARUL_STATE_LENGTH 40  /* a board */
#define BIEKKARUL_RAM_LENGTH 8192  /* PRG RAM, and CHR RAM, whether the board uses them or not */
#define BIEKKARUL_FIELDS_LENGTH 12 /* what the header reader writes */

/* The count of numbers, 64 bits each, that a state is read into. */
#define BIEKKARUL_DIGITS 40
/* The version of the state's layout, its first digit; a state of another version is refused with 10. */
#define BIEKKARUL_STATE_VERSION 1

/* Modes. */
#define BIEKKARUL_HOUSE 0 /* as the emulator potatis answers, with a refusal where it panics */
#define BIEKKARUL_BOARD 1 /* as the real board answers */

/* What a write answers: no notice, or the letter of the mirroring that it gives notice of. */
#define BIEKKARUL_NO_NOTICE 0
#define BIEKKARUL_HORIZONTAL 0x48 /* 'H' */
#define BIEKKARUL_VERTICAL 0x56   /* 'V' */
#define BIEKKARUL_UPPER 0x55      /* 'U': the upper screen everywhere */
#define BIEKKARUL_LOWER 0x4C      /* 'L': the lower screen everywhere */

/*
 * Pages: the address space in 64 parts of 1 KB. biekkarul_pages tells where each is read from and where a write to it
 * goes, as one number: its kind, 2^28 times, and an offset. The byte of an address is at the offset of its page +
 * address % 1024.
 */
#define BIEKKARUL_PAGES 64
#define BIEKKARUL_PAGE_LENGTH 1024
#define BIEKKARUL_PAGE_KIND(page) ((page) >> 28)
#define BIEKKARUL_PAGE_OFFSET(page) ((page)&0x0FFFFFFFu)

/* The kinds of pages. */
#define BIEKKARUL_PAGE_IMAGE 0   /* reads only: in the image, its header counted in */
#define BIEKKARUL_PAGE_PRG_RAM 1 /* in PRG RAM */
#define BIEKKARUL_PAGE_CHR_RAM 2 /* in CHR RAM */
#define BIEKKARUL_PAGE_NOWHERE 3 /* a read answers 0; a write answers 0, and nothing is stored and nothing moves */
#define BIEKKARUL_PAGE_REFUSED 4 /* the offset is the number of the refusal that the call would answer */
#define BIEKKARUL_PAGE_CALL 5    /* writes only: a register may move, so make the call */

/* Which pages a write may have moved, in the answer of biekkarul_write_moved. */
#define BIEKKARUL_CHR_MOVED 0x10000u /* 0 to 7, of reads and of writes */
#define BIEKKARUL_PRG_MOVED 0x20000u /* 32 to 63, of reads */
#define BIEKKARUL_RAM_MOVED 0x40000u /* 24 to 31, of reads and of writes: MMC3 in board mode only */

/* Whether an answer is a refusal, and its number; what biekkarul_write_moved says above it is left aside. */
#define BIEKKARUL_IS_REFUSED(answer) (((answer) & 0xFFFFu) >= 256)
#define BIEKKARUL_REFUSAL(answer) (((answer) & 0xFFFFu) - 256)

/* The refusals. */
#define BIEKKARUL_HEADER_TOO_SHORT 1        /* header: fewer than 16 bytes */
#define BIEKKARUL_HEADER_NOT_INES 2         /* header: bytes 0-3 are not 4E 45 53 1A */
#define BIEKKARUL_IMAGE_NOT_INES 3          /* load: fewer than 16,400 bytes, or bytes 0-3 wrong */
#define BIEKKARUL_MAPPER_NOT_TAKEN 4        /* load: mapper above 4; in board mode by NES 2.0's longer number */
#define BIEKKARUL_TRAINER_OR_FOUR_SCREEN 5  /* load: byte 6 has bit 2 or bit 3 */
#define BIEKKARUL_PRG_COUNT_NOT_TAKEN 6     /* load: PRG count 0; or above 2 for mappers 0 and 3 */
#define BIEKKARUL_IMAGE_TOO_SHORT 7         /* load: shorter than 16 + 16,384 x PRG + 8,192 x CHR */
#define BIEKKARUL_COUNT_NO_POWER_OF_TWO 8   /* load, board mode: PRG, or a CHR that is not 0 */
#define BIEKKARUL_RAM_NOT_8K 9              /* load, read, write: a RAM is not exactly 8,192 bytes */
#define BIEKKARUL_STATE_OUT_OF_RANGE 10     /* a state that no board could have; see each function */
#define BIEKKARUL_BANK_PAST_DATA 11         /* house read: the bank ends past the PRG or CHR data */
#define BIEKKARUL_NO_CHR_RAM 12             /* house write: NROM, MMC1, UxROM, 0000-1FFF, CHR ROM */
#define BIEKKARUL_NO_SUCH_PLACE 13          /* house CNROM: 2000-7FFF; or a read of 8000-BFFF with PRG 1 */
#define BIEKKARUL_IRQ_PENDING 14            /* house MMC3: even write, E000-FFFF, IRQ enabled, counter 0 or 1 */
#define BIEKKARUL_NES2_NOT_TAKEN 16         /* load, board mode, NES 2.0: see biekkarul_load */

/* The places of a state's digits; docs/ABI.md has what each says and its range. */
enum biekkarul_digit {
    BIEKKARUL_DIGIT_VERSION,
    BIEKKARUL_DIGIT_MAPPER, /* 0 NROM, 1 MMC1, 2 UxROM, 3 CNROM, 4 MMC3 */
    BIEKKARUL_DIGIT_MODE,
    BIEKKARUL_DIGIT_NES2, /* 1 where byte 7 marks NES 2.0, in either mode */
    BIEKKARUL_DIGIT_HEADER_MIRRORING, /* 0 horizontal, 1 vertical */
    BIEKKARUL_DIGIT_MIRRORING,        /* 0 horizontal, 1 vertical, 2 upper screen, 3 lower screen */
    BIEKKARUL_DIGIT_PRG_RAM,   /* 1 PRG RAM is there, 0 it is not: board mode and NES 2.0 only */
    BIEKKARUL_DIGIT_PRG_COUNT, /* up to 255; in board mode a power of two, there with NES 2.0 up to 2,048 */
    BIEKKARUL_DIGIT_CHR_COUNT,
    BIEKKARUL_DIGIT_IMAGE_LENGTH,
    BIEKKARUL_DIGIT_UXROM_BANK,
    BIEKKARUL_DIGIT_CNROM_BANK,
    BIEKKARUL_DIGIT_AXROM_BANK,
    BIEKKARUL_DIGIT_GXROM_PRG_BANK,
    BIEKKARUL_DIGIT_GXROM_CHR_BANK,
    BIEKKARUL_DIGIT_MMC1_SERIAL_COUNT,
    BIEKKARUL_DIGIT_MMC1_SERIAL_VALUE,
    BIEKKARUL_DIGIT_MMC1_PRG_MODE,
    BIEKKARUL_DIGIT_MMC1_CHR_MODE,
    BIEKKARUL_DIGIT_MMC1_CHR_0,
    BIEKKARUL_DIGIT_MMC1_CHR_1,
    BIEKKARUL_DIGIT_MMC1_PRG,
    BIEKKARUL_DIGIT_MMC3_R0,
    BIEKKARUL_DIGIT_MMC3_R1,
    BIEKKARUL_DIGIT_MMC3_R2,
    BIEKKARUL_DIGIT_MMC3_R3,
    BIEKKARUL_DIGIT_MMC3_R4,
    BIEKKARUL_DIGIT_MMC3_R5,
    BIEKKARUL_DIGIT_MMC3_R6,
    BIEKKARUL_DIGIT_MMC3_R7,
    BIEKKARUL_DIGIT_MMC3_LATCH,
    BIEKKARUL_DIGIT_MMC3_COUNTER,
    BIEKKARUL_DIGIT_MMC3_SELECT,
    BIEKKARUL_DIGIT_MMC3_PRG_MODE,
    BIEKKARUL_DIGIT_MMC3_CHR_MODE,
    BIEKKARUL_DIGIT_MMC3_IRQ_ENABLED,
    BIEKKARUL_DIGIT_MMC3_RELOAD,
    BIEKKARUL_DIGIT_MMC3_IRQ_LINE, /* 1 up, 0 low: the level, without a clock; up on MMC3 in board mode only */
    BIEKKARUL_DIGIT_RAM_ENABLED,      /* 1; 0 where PRG RAM reads 0 and ignores writes: on MMC3 in board mode only */
    BIEKKARUL_DIGIT_RAM_WRITES_DENIED /* 0; 1 where PRG RAM ignores writes: on MMC3 in board mode only */
};

/*
 * Reads the header: bytes 4 to 15 of the image go to fields as they stand.
 * Answers 0. Refusals, the first that applies: 10 (fields_length is not 12), 1, 2.
 */
uint16_t biekkarul_header(const uint8_t *image, size_t image_length,
                          uint8_t *fields, size_t fields_length);

/*
 * Loads an image, header included: writes the state and fills both RAMs with zero.
 *
 * In board mode, where byte 7 AND 0C is 08, the header is NES 2.0's: the low nibble of byte 8 stands above the mapper
 * number, the low nibble of byte 9 above the PRG count (byte 4) and its high nibble above the CHR count (byte 5). Byte 10
 * is 00 where there is no PRG RAM: then 6000-7FFF reads 0 and ignores writes on MMC1 and MMC3; both RAMs are lent all the
 * same. House mode records the mark and reads bytes 8 to 15 as little as it does without.
 *
 * Refusal 16, in board mode under that mark: the high nibble of byte 8, the submapper, is not 0; or a nibble of byte 9
 * is F, the exponent form; or byte 10 or byte 11 is none of 00, 07 and 70; or byte 11, which tells of CHR RAM, is 00 with
 * CHR count 0, or is not 00 with another.
 *
 * Answers 0. Refusals, the first that applies: 9, 10 (state_length is not 40, or mode is neither 0 nor 1),
 * 3, 4, 5, 16, 6, 7, 8.
 */
uint16_t biekkarul_load(const uint8_t *image, size_t image_length, uint8_t mode,
                        uint8_t *state, size_t state_length,
                        uint8_t *prg_ram, size_t prg_ram_length,
                        uint8_t *chr_ram, size_t chr_ram_length);

/*
 * The byte at an address. The image is the one that was loaded.
 * Answers the byte. Refusals, the first that applies: 9, 10 (the state is out of range, or image_length is
 * not the one loaded), then 11 or 13 of the board.
 */
uint16_t biekkarul_read(const uint8_t *state, size_t state_length,
                        const uint8_t *image, size_t image_length,
                        const uint8_t *prg_ram, size_t prg_ram_length,
                        const uint8_t *chr_ram, size_t chr_ram_length,
                        uint16_t address);

/*
 * Writes a byte at an address; the state and the RAMs become the next ones. On MMC3 in board mode a write to an odd
 * address of A000-BFFF locks and unlocks PRG RAM, by bits 7 (enabled) and 6 (writes denied): docs/ABI.md, "PRG RAM's
 * protection".
 * Answers the letter of a notice, or 0. Refusals, the first that applies: 9, 10 (as in a read), then 12, 13
 * or 14 of the board.
 */
uint16_t biekkarul_write(uint8_t *state, size_t state_length,
                         const uint8_t *image, size_t image_length,
                         uint8_t *prg_ram, size_t prg_ram_length,
                         uint8_t *chr_ram, size_t chr_ram_length,
                         uint16_t address, uint8_t value);

/*
 * One clock of MMC3's counter; on other boards nothing moves, and the answer is 0.
 * House mode answers 1 at the clocks where an IRQ comes, else 0. Board mode answers the level of the IRQ line after the
 * clock: 1 from the clock that raises it on, until an even write to E000-FFFF lowers it. docs/ABI.md, "The IRQ line".
 * Refused with 10 when the state is out of range.
 */
uint16_t biekkarul_clock(uint8_t *state, size_t state_length);

/*
 * Reads a state into its digits, each at its place of enum biekkarul_digit. digits_length counts numbers.
 * Answers 0. Refused with 10 when the state is out of range or digits_length is not 40.
 */
uint16_t biekkarul_digits(const uint8_t *state, size_t state_length,
                          uint64_t *digits, size_t digits_length);

/*
 * Where pages are read from and where writes to them go, by the state alone: reads[i] and writes[i] are of page
 * first + i, whose first address is (first + i) * 1024. The lengths count numbers; either may be 0, with a pointer
 * that is not null. From then on a caller reads and writes its own bytes, until a write moves a page:
 * biekkarul_write_moved says which. Pages 8 to 23, and the writes' 32 to 63, stay as long as the image is loaded; a
 * clock moves none; a load, a power cycle or another state makes all anew. Offsets lie in an image of the length that
 * the state has as BIEKKARUL_DIGIT_IMAGE_LENGTH.
 * Answers 0. Refused with 10 when the state is out of range, or when first and a length are above 64 together.
 */
uint16_t biekkarul_pages(const uint8_t *state, size_t state_length, uint8_t first,
                         uint32_t *reads, size_t reads_length,
                         uint32_t *writes, size_t writes_length);

/*
 * A write that also says which pages it may have moved: all that biekkarul_write does, and its answer in the low 16
 * bits. BIEKKARUL_CHR_MOVED, BIEKKARUL_PRG_MOVED and BIEKKARUL_RAM_MOVED are set above it just where a register
 * or a mark that those pages hang on holds another value than before; a refused write sets none.
 */
uint32_t biekkarul_write_moved(uint8_t *state, size_t state_length,
                               const uint8_t *image, size_t image_length,
                               uint8_t *prg_ram, size_t prg_ram_length,
                               uint8_t *chr_ram, size_t chr_ram_length,
                               uint16_t address, uint8_t value);

/*
 * The library's version. Where it is not BIEKKARUL_VERSION, this header is not that library's.
 */
uint32_t biekkarul_version(void);

/*
 * The three functions below are this header's own: they are made of the calls above and of nothing else.
 */

/* The letter of a mirroring that stands as a digit in a state. */
static inline uint16_t biekkarul_mirroring_letter(uint64_t digit) {
    switch (digit) {
    case 0: return BIEKKARUL_HORIZONTAL;
    case 1: return BIEKKARUL_VERTICAL;
    case 2: return BIEKKARUL_UPPER;
    default: return BIEKKARUL_LOWER;
    }
}

/*
 * The mirroring that now holds. In board mode it stands in the state. In house mode the state has the header's
 * for good, as in potatis, and the screens are turned as the last notice said: so the caller keeps that one,
 * from the load or power cycle on, and says it here, or BIEKKARUL_NO_NOTICE where there has been none.
 * Answers the letter. Refused with 10 when the state is out of range, or when last_notice is no answer of a write.
 */
static inline uint16_t biekkarul_mirroring(const uint8_t *state, size_t state_length, uint16_t last_notice) {
    uint64_t digits[BIEKKARUL_DIGITS];
    const uint16_t answer = biekkarul_digits(state, state_length, digits, BIEKKARUL_DIGITS);
    if (BIEKKARUL_IS_REFUSED(answer)) return answer;
    switch (last_notice) {
    case BIEKKARUL_NO_NOTICE:
    case BIEKKARUL_HORIZONTAL:
    case BIEKKARUL_VERTICAL:
    case BIEKKARUL_UPPER:
    case BIEKKARUL_LOWER: break;
    default: return 256 + BIEKKARUL_STATE_OUT_OF_RANGE;
    }
    if (digits[BIEKKARUL_DIGIT_MODE] == BIEKKARUL_HOUSE && last_notice != BIEKKARUL_NO_NOTICE) return last_notice;
    return biekkarul_mirroring_letter(digits[BIEKKARUL_DIGIT_MIRRORING]);
}

/*
 * The console is switched off and on: the registers become what a load in the same mode leaves and CHR RAM
 * becomes zeros, while PRG RAM, which a battery keeps, is not lent and stays as it is. The last notice is
 * BIEKKARUL_NO_NOTICE again. It takes 8 KB of stack: the load is lent a PRG RAM of its own, and clears that.
 * Answers 0. Refusals, the first that applies: 10 (the state is out of range, or image_length is not the one
 * loaded), then those of a load.
 */
static inline uint16_t biekkarul_power_cycle(uint8_t *state, size_t state_length,
                                             const uint8_t *image, size_t image_length,
                                             uint8_t *chr_ram, size_t chr_ram_length) {
    uint8_t scratch[BIEKKARUL_RAM_LENGTH];
    uint64_t digits[BIEKKARUL_DIGITS];
    const uint16_t answer = biekkarul_digits(state, state_length, digits, BIEKKARUL_DIGITS);
    if (BIEKKARUL_IS_REFUSED(answer)) return answer;
    if (digits[BIEKKARUL_DIGIT_IMAGE_LENGTH] != image_length) return 256 + BIEKKARUL_STATE_OUT_OF_RANGE;
    return biekkarul_load(image, image_length, (uint8_t)digits[BIEKKARUL_DIGIT_MODE], state, state_length,
                          scratch, sizeof scratch, chr_ram, chr_ram_length);
}

#ifdef __cplusplus
}
#endif

#endif
