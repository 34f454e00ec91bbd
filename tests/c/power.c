/*
 * The header's own functions, on boards of both modes: what a power cycle leaves, which mirroring then holds, and
 * what they refuse. Builds as C99, C11 and C++17 without a warning, as a caller's program may be any of them.
 */
#include "biekkarul.h"

#include <stdio.h>
#include <string.h>

#define PRG_BLOCK 16384
#define IMAGE_LENGTH (16 + 2 * PRG_BLOCK)
#define TEN (256 + BIEKKARUL_STATE_OUT_OF_RANGE)

struct board {
    uint8_t state[BIEKKARUL_STATE_LENGTH];
    uint8_t prg_ram[BIEKKARUL_RAM_LENGTH];
    uint8_t chr_ram[BIEKKARUL_RAM_LENGTH];
    uint16_t last_notice;
};

static uint8_t image[IMAGE_LENGTH];
static struct board now, loaded, before;
static unsigned checks, failures;

static void expect(const char *what, unsigned got, unsigned wanted) {
    checks++;
    if (got == wanted) return;
    failures++;
    fprintf(stderr, "power: %s: got %u, not %u\n", what, got, wanted);
}

/* MMC1 or MMC3, two PRG blocks, CHR RAM; horizontal. */
static void load(unsigned mapper, uint8_t mode) {
    static const uint8_t magic[4] = {0x4E, 0x45, 0x53, 0x1A};
    memset(image, 0, sizeof image);
    memcpy(image, magic, sizeof magic);
    image[4] = 2;
    image[6] = (uint8_t)(mapper * 16);
    memset(&now, 0xA5, sizeof now);
    expect("the load", biekkarul_load(image, sizeof image, mode, now.state, sizeof now.state, now.prg_ram,
                                      sizeof now.prg_ram, now.chr_ram, sizeof now.chr_ram), 0);
    now.last_notice = BIEKKARUL_NO_NOTICE;
    loaded = now;
}

/* A caller's write: it keeps the last notice. */
static void put(uint16_t address, uint8_t value) {
    uint16_t answer = biekkarul_write(now.state, sizeof now.state, image, sizeof image, now.prg_ram,
                                      sizeof now.prg_ram, now.chr_ram, sizeof now.chr_ram, address, value);
    expect("a write is taken", BIEKKARUL_IS_REFUSED(answer), 0);
    if (answer != BIEKKARUL_NO_NOTICE) now.last_notice = answer;
}

static void put_serial(uint16_t address, unsigned value) {
    unsigned bit;
    for (bit = 0; bit < 5; bit++) put(address, (uint8_t)(value >> bit & 1));
}

static unsigned mirroring(void) { return biekkarul_mirroring(now.state, sizeof now.state, now.last_notice); }

static unsigned power_cycle(void) {
    return biekkarul_power_cycle(now.state, sizeof now.state, image, sizeof image, now.chr_ram, sizeof now.chr_ram);
}

static unsigned clock_once(void) { return biekkarul_clock(now.state, sizeof now.state); }

static unsigned get(uint16_t address) {
    return biekkarul_read(now.state, sizeof now.state, image, sizeof image, now.prg_ram, sizeof now.prg_ram,
                          now.chr_ram, sizeof now.chr_ram, address);
}

static unsigned digit(enum biekkarul_digit place) {
    uint64_t digits[BIEKKARUL_DIGITS];
    expect("a state", biekkarul_digits(now.state, sizeof now.state, digits, BIEKKARUL_DIGITS), 0);
    return (unsigned)digits[place];
}

static unsigned line(void) { return digit(BIEKKARUL_DIGIT_MMC3_IRQ_LINE); }

/*
 * Moved registers, a saved byte and a drawn one; then off and on. The drawn one is put there by hand, since house
 * MMC3 writes to no CHR RAM.
 */
static void check_cycle(unsigned mapper, uint8_t mode) {
    load(mapper, mode);
    expect("the header's mirroring", mirroring(), BIEKKARUL_HORIZONTAL);
    if (mapper == 1) {
        put_serial(0x8000, 2);
    } else {
        put(0xA000, 0);
        put(0xC000, 5);
    }
    expect("vertical now", mirroring(), BIEKKARUL_VERTICAL);
    put(0x6000, 0x2A);
    now.chr_ram[0] = 0x77;
    expect("a byte is saved", now.prg_ram[0], 0x2A);
    expect("the registers have moved", memcmp(now.state, loaded.state, sizeof now.state) != 0, 1);
    before = now;
    expect("the power cycle", power_cycle(), 0);
    now.last_notice = BIEKKARUL_NO_NOTICE;
    expect("registers as a load leaves them", memcmp(now.state, loaded.state, sizeof now.state) != 0, 0);
    expect("PRG RAM kept", memcmp(now.prg_ram, before.prg_ram, sizeof now.prg_ram) != 0, 0);
    expect("CHR RAM cleared", memcmp(now.chr_ram, loaded.chr_ram, sizeof now.chr_ram) != 0, 0);
    expect("the header's mirroring again", mirroring(), BIEKKARUL_HORIZONTAL);
}

/* A power cycle lowers MMC3's line, which otherwise stays up until it is acknowledged. */
static void check_line_falls(void) {
    load(4, BIEKKARUL_BOARD);
    expect("the line at load", line(), 0);
    put(0xC001, 0);
    put(0xE001, 0);
    expect("the line is raised", clock_once(), 1);
    expect("the line is up", line(), 1);
    expect("the power cycle", power_cycle(), 0);
    expect("the line is low", line(), 0);
    expect("and stays low", clock_once(), 0);
}

/* A power cycle unlocks MMC3's RAM, which this byte had locked, and keeps what was saved in it. */
static void check_unlocks(uint8_t marks) {
    load(4, BIEKKARUL_BOARD);
    put(0x6000, 0x2A);
    put(0x7FFF, 0x2B);
    put(0xA001, marks);
    put(0x6000, 0x33);
    expect("locked RAM keeps its byte", now.prg_ram[0], 0x2A);
    before = now;
    expect("the power cycle", power_cycle(), 0);
    expect("registers as a load leaves them", memcmp(now.state, loaded.state, sizeof now.state) != 0, 0);
    expect("RAM is enabled", digit(BIEKKARUL_DIGIT_RAM_ENABLED), 1);
    expect("and writable", digit(BIEKKARUL_DIGIT_RAM_WRITES_DENIED), 0);
    expect("PRG RAM kept", memcmp(now.prg_ram, before.prg_ram, sizeof now.prg_ram) != 0, 0);
    expect("a saved byte", get(0x6000), 0x2A);
    expect("the last saved byte", get(0x7FFF), 0x2B);
    put(0x6000, 0x33);
    expect("RAM is written again", get(0x6000), 0x33);
}

/* In house mode a return to the header's mirroring gives no notice, so the screens stay turned; on a board they turn. */
static void check_turned_back(uint8_t mode, unsigned wanted) {
    load(1, mode);
    put_serial(0x8000, 1);
    expect("the upper screen", mirroring(), BIEKKARUL_UPPER);
    put_serial(0x8000, 0);
    expect("the lower screen", mirroring(), BIEKKARUL_LOWER);
    put_serial(0x8000, 3);
    expect("the header's is asked for", mirroring(), wanted);
}

static void check_refusals(void) {
    load(4, BIEKKARUL_BOARD);
    put(0x6000, 0x2A);
    before = now;
    expect("a notice that is none", biekkarul_mirroring(now.state, sizeof now.state, 'X'), TEN);
    expect("a refusal as a notice", biekkarul_mirroring(now.state, sizeof now.state, 256 + 12), TEN);
    expect("the mirroring of no state", biekkarul_mirroring(now.state, sizeof now.state - 1, 0), TEN);
    expect("a state too short", biekkarul_power_cycle(now.state, sizeof now.state - 1, image, sizeof image,
                                                      now.chr_ram, sizeof now.chr_ram), TEN);
    expect("another image's length", biekkarul_power_cycle(now.state, sizeof now.state, image, sizeof image - 1,
                                                           now.chr_ram, sizeof now.chr_ram), TEN);
    expect("a CHR RAM too short", biekkarul_power_cycle(now.state, sizeof now.state, image, sizeof image,
                                                        now.chr_ram, sizeof now.chr_ram - 1),
           256 + BIEKKARUL_RAM_NOT_8K);
    image[0] ^= 1;
    expect("another image", power_cycle(), 256 + BIEKKARUL_IMAGE_NOT_INES);
    expect("nothing is changed", memcmp(&now, &before, sizeof now) != 0, 0);
    now.state[0] = 2;
    expect("a state of another version", power_cycle(), TEN);
}

int main(void) {
    expect("the header is this library's", biekkarul_version(), BIEKKARUL_VERSION);
    check_cycle(1, BIEKKARUL_HOUSE);
    check_cycle(1, BIEKKARUL_BOARD);
    check_cycle(4, BIEKKARUL_HOUSE);
    check_cycle(4, BIEKKARUL_BOARD);
    check_line_falls();
    check_unlocks(0x00);
    check_unlocks(0x40);
    check_unlocks(0xC0);
    check_turned_back(BIEKKARUL_HOUSE, BIEKKARUL_LOWER);
    check_turned_back(BIEKKARUL_BOARD, BIEKKARUL_HORIZONTAL);
    check_refusals();
    printf("power: %u checks, %u failed\n", checks, failures);
    return failures != 0;
}
