/*
 * biekkarul_pages and biekkarul_write_moved, against the calls that they stand beside and against the second reading of
 * the boards in trials/model.h: five boards, both modes, images of many shapes, NES 2.0 with and without PRG RAM, states
 * that random writes reach, banks past the data and locked RAM among them. A map that is made anew only where an answer
 * says so must always be the whole map; a read or a write through any of its pages must be the call's and the model's;
 * lengths that do not fit and states that are none must be refused with nothing changed.
 */
#include "model.h"

#include <stdio.h>
#include <stdlib.h>

#define MOST_IMAGE (HEADER_LENGTH + 512u * PRG_BLOCK + 256u * CHR_BLOCK)
#define TEN REFUSED(BIEKKARUL_STATE_OUT_OF_RANGE)
#define NINE REFUSED(BIEKKARUL_RAM_NOT_8K)
#define MOST 40             /* messages before we stop */
#define NO_PAGE 0xA5A5A5A5u /* what a number holds before it is written */
#define CHR_PAGES 8u
#define FIRST_PRG_PAGE 32u
#define FIRST_RAM_PAGE 24u /* 6000 */
#define RAM_PAGES 8u

static unsigned long checks, failures;

static void expect(const char *what, unsigned long got, unsigned long wanted) {
    checks++;
    if (got == wanted) return;
    failures++;
    fprintf(stderr, "pages: %s: got %lx, not %lx (hex)\n", what, got, wanted);
    if (failures == MOST) {
        fprintf(stderr, "pages: stopped after %d failures\n", MOST);
        exit(1);
    }
}

static uint64_t chance = 2026;

static unsigned below(unsigned limit) {
    chance ^= chance << 13;
    chance ^= chance >> 7;
    chance ^= chance << 17;
    return (unsigned)(chance >> 11) % limit;
}

static uint8_t image[MOST_IMAGE];
static size_t image_length;

struct buffers {
    uint8_t state[BIEKKARUL_STATE_LENGTH + 1];
    uint8_t prg_ram[BIEKKARUL_RAM_LENGTH + 1];
    uint8_t chr_ram[BIEKKARUL_RAM_LENGTH + 1];
};

struct map {
    uint32_t reads[BIEKKARUL_PAGES], writes[BIEKKARUL_PAGES];
};

/* The same board three times: as calls move it, as its map and biekkarul_write_moved do, and as the model has it. */
static struct buffers called, mapped;
static struct model model;
static struct map map, loaded_map;

static int same_buffers(void) { return !memcmp(&called, &mapped, sizeof called); }

static unsigned call_read(unsigned address) {
    return biekkarul_read(called.state, BIEKKARUL_STATE_LENGTH, image, image_length, called.prg_ram,
                          BIEKKARUL_RAM_LENGTH, called.chr_ram, BIEKKARUL_RAM_LENGTH, (uint16_t)address);
}

static unsigned call_write(unsigned address, unsigned value) {
    return biekkarul_write(called.state, BIEKKARUL_STATE_LENGTH, image, image_length, called.prg_ram,
                           BIEKKARUL_RAM_LENGTH, called.chr_ram, BIEKKARUL_RAM_LENGTH, (uint16_t)address,
                           (uint8_t)value);
}

static unsigned write_moved_with(size_t state_length, size_t lent_length, size_t prg_length, size_t chr_length,
                                 unsigned address, unsigned value) {
    return biekkarul_write_moved(mapped.state, state_length, image, lent_length, mapped.prg_ram, prg_length,
                                 mapped.chr_ram, chr_length, (uint16_t)address, (uint8_t)value);
}

static unsigned write_moved(unsigned address, unsigned value) {
    return write_moved_with(BIEKKARUL_STATE_LENGTH, image_length, BIEKKARUL_RAM_LENGTH, BIEKKARUL_RAM_LENGTH, address,
                            value);
}

static unsigned pages(unsigned first, uint32_t *to_reads, size_t n, uint32_t *to_writes, size_t m) {
    return biekkarul_pages(mapped.state, BIEKKARUL_STATE_LENGTH, (uint8_t)first, to_reads, n, to_writes, m);
}

/* All pages of the state, asked for at once. */
static struct map whole_map(void) {
    struct map m;
    expect("the pages of a board", pages(0, m.reads, BIEKKARUL_PAGES, m.writes, BIEKKARUL_PAGES), 0);
    return m;
}

/* Loads the image behind this header three times. */
static void load_image(const uint8_t *header, unsigned mode, unsigned prg, unsigned chr) {
    memcpy(image, header, HEADER_LENGTH);
    image_length = HEADER_LENGTH + PRG_BLOCK * (size_t)prg + CHR_BLOCK * (size_t)chr;
    memset(&called, 0xA5, sizeof called);
    expect("an image that is taken", load_answer(image, image_length, mode), 0);
    expect("the load", biekkarul_load(image, image_length, (uint8_t)mode, called.state, BIEKKARUL_STATE_LENGTH,
                                      called.prg_ram, BIEKKARUL_RAM_LENGTH, called.chr_ram, BIEKKARUL_RAM_LENGTH), 0);
    mapped = called;
    model_load(&model, image, image_length, mode);
    map = loaded_map = whole_map();
}

static void load(unsigned mapper, unsigned mode, unsigned prg, unsigned chr) {
    const uint8_t flags = (uint8_t)(mapper * 16 + below(2));
    const uint8_t header[HEADER_LENGTH] = {0x4E, 0x45, 0x53, 0x1A, (uint8_t)prg, (uint8_t)chr, flags};
    load_image(header, mode, prg, chr);
}

/* The same marked NES 2.0: counts may be longer than a byte, and byte 10 says whether there is PRG RAM. */
static void load_marked(unsigned mapper, unsigned mode, unsigned prg, unsigned chr, unsigned byte10) {
    const uint8_t flags = (uint8_t)(mapper * 16 + below(2)), longer = (uint8_t)(chr / 256 * 16 + prg / 256);
    const uint8_t header[HEADER_LENGTH] = {0x4E, 0x45, 0x53, 0x1A, (uint8_t)(prg % 256), (uint8_t)(chr % 256), flags, 0x08,
                                           0,    longer, (uint8_t)byte10, chr == 0 ? 0x70 : 0x00};
    load_image(header, mode, prg, chr);
}

/* The numbers of the map are the model's. */
static void check_numbers(const struct map *m) {
    unsigned page;
    for (page = 0; page < BIEKKARUL_PAGES; page++) {
        expect("where a page is read from", m->reads[page], model_read_page(&model, page));
        expect("where a write to a page goes", m->writes[page], model_write_page(&model, page));
    }
}

static unsigned read_through(unsigned address) {
    const uint32_t page = map.reads[address / BIEKKARUL_PAGE_LENGTH], offset = BIEKKARUL_PAGE_OFFSET(page);
    const size_t at = offset + address % BIEKKARUL_PAGE_LENGTH;
    switch (BIEKKARUL_PAGE_KIND(page)) {
    case BIEKKARUL_PAGE_IMAGE: return at < image_length ? image[at] : NO_PAGE;
    case BIEKKARUL_PAGE_PRG_RAM: return at < BIEKKARUL_RAM_LENGTH ? mapped.prg_ram[at] : NO_PAGE;
    case BIEKKARUL_PAGE_CHR_RAM: return at < BIEKKARUL_RAM_LENGTH ? mapped.chr_ram[at] : NO_PAGE;
    case BIEKKARUL_PAGE_NOWHERE: return 0;
    case BIEKKARUL_PAGE_REFUSED: return REFUSED(offset);
    default: return NO_PAGE;
    }
}

/* The answer of a write through its page; a page that asks for the call is the caller's to make. */
static unsigned write_through(unsigned address, unsigned value) {
    const uint32_t page = map.writes[address / BIEKKARUL_PAGE_LENGTH], offset = BIEKKARUL_PAGE_OFFSET(page);
    const size_t at = offset + address % BIEKKARUL_PAGE_LENGTH;
    uint8_t *ram = BIEKKARUL_PAGE_KIND(page) == BIEKKARUL_PAGE_PRG_RAM ? mapped.prg_ram : mapped.chr_ram;
    switch (BIEKKARUL_PAGE_KIND(page)) {
    case BIEKKARUL_PAGE_PRG_RAM:
    case BIEKKARUL_PAGE_CHR_RAM:
        if (at >= BIEKKARUL_RAM_LENGTH) return NO_PAGE;
        ram[at] = (uint8_t)value;
        return BIEKKARUL_NO_NOTICE;
    case BIEKKARUL_PAGE_NOWHERE: return BIEKKARUL_NO_NOTICE;
    case BIEKKARUL_PAGE_REFUSED: return REFUSED(offset);
    default: return NO_PAGE;
    }
}

static void check_read(unsigned address) {
    const unsigned got = read_through(address);
    expect("a read through its page", got, model_read(&model, image, address));
    expect("a read through its page, as the call", got, call_read(address));
}

static void rams_as_the_model_has(void) {
    expect("PRG RAM", memcmp(mapped.prg_ram, model.prg_ram, sizeof model.prg_ram) != 0, 0);
    expect("CHR RAM", memcmp(mapped.chr_ram, model.chr_ram, sizeof model.chr_ram) != 0, 0);
}

/* A write below the registers: through its page, by the call and in the model. */
static void check_store(unsigned address, unsigned value) {
    const unsigned got = write_through(address, value);
    expect("a write through its page", got, model_write(&model, address, value));
    expect("a write through its page, as the call", got, call_write(address, value));
    expect("state and RAMs are the call's", (unsigned long)same_buffers(), 1);
    rams_as_the_model_has();
}

/* Every page, at its ends and at one more address. */
static void check_every_page(void) {
    unsigned page, k;
    for (page = 0; page < BIEKKARUL_PAGES; page++) {
        const unsigned places[3] = {0, BIEKKARUL_PAGE_LENGTH - 1, below(BIEKKARUL_PAGE_LENGTH)};
        for (k = 0; k < 3; k++) {
            const unsigned address = page * BIEKKARUL_PAGE_LENGTH + places[k];
            if (BIEKKARUL_PAGE_KIND(map.writes[page]) != BIEKKARUL_PAGE_CALL) check_store(address, below(256));
            check_read(address);
        }
    }
}

static void check_every_address(void) {
    unsigned address;
    for (address = 0; address < 0x10000; address++) check_read(address);
}

/* From page first to the one before end the numbers are those of the load. */
static void expect_stay(const char *what, const uint32_t *numbers, const uint32_t *loaded, unsigned first, unsigned end) {
    expect(what, memcmp(numbers + first, loaded + first, (end - first) * sizeof *numbers) != 0, 0);
}

/* Of pages 24 to 31 only MMC3's may move, in board mode. */
static void check_what_stays(const struct map *whole) {
    const int may_be_locked = model.mapper == MMC3 && model.board_mode;
    const unsigned middle_end = may_be_locked ? FIRST_RAM_PAGE : FIRST_PRG_PAGE;
    expect_stay("pages 8 to 23, or 31, stay", whole->reads, loaded_map.reads, CHR_PAGES, middle_end);
    expect_stay("so do those of writes", whole->writes, loaded_map.writes, CHR_PAGES, middle_end);
    expect_stay("pages 32 to 63 of writes stay", whole->writes, loaded_map.writes, FIRST_PRG_PAGE, BIEKKARUL_PAGES);
}

/* Of the map only what an answer says has moved is made anew; what has not moved must be as it was. */
static void refill(unsigned answer) {
    struct map whole;
    if (answer & BIEKKARUL_CHR_MOVED) expect("pages 0 to 7", pages(0, map.reads, CHR_PAGES, map.writes, CHR_PAGES), 0);
    if (answer & BIEKKARUL_PRG_MOVED)
        expect("pages 32 to 63 of reads",
               pages(FIRST_PRG_PAGE, map.reads + FIRST_PRG_PAGE, BIEKKARUL_PAGES - FIRST_PRG_PAGE, map.writes, 0), 0);
    if (answer & BIEKKARUL_RAM_MOVED)
        expect("pages 24 to 31", pages(FIRST_RAM_PAGE, map.reads + FIRST_RAM_PAGE, RAM_PAGES, map.writes + FIRST_RAM_PAGE,
                                       RAM_PAGES), 0);
    whole = whole_map();
    expect("the map kept up is the whole one", memcmp(&map, &whole, sizeof map) != 0, 0);
    check_what_stays(&whole);
}

/* Any write, by both calls and in the model; then the map is kept up. Answers the bits of what may have moved. */
static unsigned check_write(unsigned address, unsigned value) {
    const struct model was = model;
    const unsigned wanted = model_write(&model, address, value), got = write_moved(address, value);
    expect("the answer of biekkarul_write_moved", got & 0xFFFF, wanted);
    expect("the bits above it", got & ~0xFFFFu, moved_bits(&was, &model));
    expect("biekkarul_write answers the same", call_write(address, value), got & 0xFFFF);
    expect("and leaves the same", (unsigned long)same_buffers(), 1);
    rams_as_the_model_has();
    refill(got);
    return got & ~0xFFFFu;
}

static void check_clock(void) {
    const unsigned wanted = model_clock(&model);
    expect("a clock", biekkarul_clock(called.state, BIEKKARUL_STATE_LENGTH), wanted);
    expect("a clock", biekkarul_clock(mapped.state, BIEKKARUL_STATE_LENGTH), wanted);
    refill(0);
}

/* A write to one of MMC3's registers; one of RAM's marks has each setting about as often as the others. */
static unsigned move_mmc3(unsigned value) {
    static const unsigned registers[5] = {0x8000, 0x8001, 0x8001, 0xA001, 0xE000};
    const unsigned first = registers[below(5)];
    return check_write(first + 2 * below(0x1000), first == 0xA001 || below(2) ? value | below(4) * 64 : value);
}

/* A write that is likely to move a bank: MMC1 takes five for that, the value's bits from the lowest up. */
static unsigned move_a_bank(void) {
    unsigned address = 0x8000 + below(0x8000), value = below(3) ? below(24) : below(256), bit, moved = 0;
    switch (model.mapper) {
    case MMC1:
        for (bit = 0; bit < 5; bit++) moved |= check_write(address, value >> bit & 1);
        return moved;
    case MMC3: return move_mmc3(value);
    default: return check_write(address, value);
    }
}

/* Random writes and clocks, with all pages looked at wherever some have moved. */
static unsigned play(unsigned rounds) {
    unsigned round, moved = 0;
    for (round = 0; round < rounds; round++) {
        if (move_a_bank()) {
            moved++;
            check_numbers(&map);
            check_every_page();
        }
        check_write(below(0x10000), below(256));
        if (below(4) == 0) check_clock();
    }
    check_numbers(&map);
    check_every_page();
    check_every_address();
    return moved;
}

/* Counts of 16 KB and 8 KB; board mode takes powers of two only, which come first. */
static const uint8_t shapes[][2] = {{1, 0},  {2, 0},   {1, 1},     {2, 1}, {2, 4}, {4, 16},
                                    {16, 32}, {128, 128}, {3, 0}, {5, 3}, {17, 33}, {255, 255}};
#define SHAPES (sizeof shapes / sizeof *shapes)
#define BOARD_SHAPES 8

static void check_boards(void) {
    unsigned mapper, mode, shape, moved[MMC3 + 1] = {0};
    for (mapper = NROM; mapper <= MMC3; mapper++) {
        for (mode = BIEKKARUL_HOUSE; mode <= BIEKKARUL_BOARD; mode++) {
            for (shape = 0; shape < SHAPES; shape++) {
                const unsigned prg = shapes[shape][0], chr = shapes[shape][1];
                if ((mapper == NROM || mapper == CNROM) && prg > 2) continue;
                if (mode == BIEKKARUL_BOARD && shape >= BOARD_SHAPES) continue;
                load(mapper, mode, prg, chr);
                check_numbers(&map);
                moved[mapper] += play(60);
            }
        }
        expect("banks move often enough, and on NROM never", moved[mapper] >= (mapper == NROM ? 0 : 100), 1);
    }
    expect("on NROM nothing moves", moved[NROM], 0);
}

/* Counts that board mode takes under the mark; house mode reads those below 256 as iNES. */
static const unsigned marked_shapes[][2] = {{1, 0}, {2, 4}, {2, 256}, {16, 32}, {256, 0}, {512, 256}};
#define MARKED_SHAPES (sizeof marked_shapes / sizeof *marked_shapes)

static void check_marked_board(unsigned mapper, unsigned mode, unsigned prg, unsigned chr) {
    static const unsigned bytes10[3] = {0x00, 0x07, 0x70};
    unsigned k;
    if ((mapper == NROM || mapper == CNROM) && prg > 2) return;
    if (mode == BIEKKARUL_HOUSE && (prg > 255 || chr > 255)) return;
    for (k = 0; k < 3; k++) {
        load_marked(mapper, mode, prg, chr, bytes10[k]);
        check_numbers(&map);
        play(30);
    }
}

static void check_marked_boards(void) {
    unsigned mapper, mode, shape;
    for (mapper = NROM; mapper <= MMC3; mapper++)
        for (mode = BIEKKARUL_HOUSE; mode <= BIEKKARUL_BOARD; mode++)
            for (shape = 0; shape < MARKED_SHAPES; shape++)
                check_marked_board(mapper, mode, marked_shapes[shape][0], marked_shapes[shape][1]);
}

/* 6000-7FFF of MMC1 and MMC3: nowhere in board mode where byte 10 is 00, else PRG RAM from its start on. */
static void check_ram_pages(unsigned mapper, unsigned mode, unsigned byte10) {
    const int there = mode == BIEKKARUL_HOUSE || byte10 != 0x00;
    unsigned page;
    load_marked(mapper, mode, 2, 0, byte10);
    for (page = FIRST_RAM_PAGE; page < FIRST_PRG_PAGE; page++) {
        const unsigned offset = (page - FIRST_RAM_PAGE) * BIEKKARUL_PAGE_LENGTH;
        const unsigned kind = there ? BIEKKARUL_PAGE_PRG_RAM : BIEKKARUL_PAGE_NOWHERE;
        expect("the kind of a page of 6000-7FFF, read", BIEKKARUL_PAGE_KIND(map.reads[page]), kind);
        expect("the kind of a page of 6000-7FFF, written", BIEKKARUL_PAGE_KIND(map.writes[page]), kind);
        expect("its offset", BIEKKARUL_PAGE_OFFSET(map.reads[page]), there ? offset : 0);
    }
}

/* 24 to 31 of MMC3 in board mode with these marks: of reads where RAM is enabled, of writes where it is writable too. */
static void check_locked_pages(int there, unsigned enabled, unsigned denied) {
    unsigned page;
    for (page = FIRST_RAM_PAGE; page < FIRST_PRG_PAGE; page++) {
        const unsigned in_ram = (1u << 28) + (page - FIRST_RAM_PAGE) * BIEKKARUL_PAGE_LENGTH, nowhere = 3u << 28;
        expect("a page of 6000-7FFF, read", map.reads[page], there && enabled ? in_ram : nowhere);
        expect("a page of 6000-7FFF, written", map.writes[page], there && enabled && !denied ? in_ram : nowhere);
    }
}

/*
 * From each setting of the two marks to each (M-111): the write says that they move just where one of them does, also where
 * there is no PRG RAM, and says nothing else. What RAM holds shows again once it is open.
 */
static void check_settings(unsigned byte10) {
    unsigned from, to;
    load_marked(MMC3, BIEKKARUL_BOARD, 2, 4, byte10);
    check_store(0x6000, 0x5A);
    for (from = 0; from < 4; from++) {
        for (to = 0; to < 4; to++) {
            check_write(0xA001, from * 64);
            expect("moved marks", check_write(0xBFFF, to * 64 + below(64)), from == to ? 0 : BIEKKARUL_RAM_MOVED);
            check_locked_pages(byte10 != 0x00, to / 2, to % 2);
            expect("an even write moves no mark", check_write(0xA000, below(256)), 0);
            check_clock();
            check_every_page();
        }
    }
}

/* In house mode, and on other boards, pages 24 to 31 stay and no write says that they move. */
static void check_no_settings(unsigned mapper, unsigned mode) {
    unsigned bits;
    load(mapper, mode, 2, 4);
    for (bits = 0; bits < 4; bits++) {
        expect("no marks move", check_write(0xA001, bits * 64) & BIEKKARUL_RAM_MOVED, 0);
        expect("no marks move", check_write(0xBFFF, bits * 64) & BIEKKARUL_RAM_MOVED, 0);
        check_every_page();
    }
}

static void check_marks(void) {
    unsigned mapper;
    check_settings(0x00);
    check_settings(0x07);
    check_settings(0x70);
    for (mapper = NROM; mapper <= MMC3; mapper++) {
        check_no_settings(mapper, BIEKKARUL_HOUSE);
        if (mapper != MMC3) check_no_settings(mapper, BIEKKARUL_BOARD);
    }
}

static void check_prg_ram_pages(void) {
    unsigned mode;
    for (mode = BIEKKARUL_HOUSE; mode <= BIEKKARUL_BOARD; mode++) {
        check_ram_pages(MMC1, mode, 0x00);
        check_ram_pages(MMC1, mode, 0x07);
        check_ram_pages(MMC3, mode, 0x00);
        check_ram_pages(MMC3, mode, 0x70);
    }
}

/* MMC3's line in board mode (M-101): no page moves where it is raised, where it stays up and where it is acknowledged. */
static void check_line(void) {
    static const unsigned leave_it[4] = {0xC000, 0xC001, 0xA000, 0xE001};
    unsigned i, moved;
    load(MMC3, BIEKKARUL_BOARD, 2, 4);
    check_write(0xE001, 0);
    check_clock();
    for (i = 0; i < 4; i++) {
        moved = check_write(leave_it[i], 9);
        check_clock();
        expect("the line is up, and no page has moved", model.line == 1 && moved == 0, 1);
    }
    moved = check_write(0xFFFE, 9);
    check_clock();
    expect("the line is low, and no page has moved", model.line == 0 && moved == 0, 1);
}

/* Room for more numbers than there are pages. */
#define ROOM 330u
static uint32_t reads[ROOM], writes[ROOM], held[ROOM];

/* So many numbers are the wanted ones, and behind them everything is as it was. */
static void check_told(const char *what, const uint32_t *told, const uint32_t *wanted, size_t length) {
    expect(what, memcmp(told, wanted, length * sizeof *told) != 0, 0);
    expect("nothing past the pages", memcmp(told + length, held + length, (ROOM - length) * sizeof *told) != 0, 0);
}

/* One call with any first page and any two lengths; where they do not fit, both buffers hold what they held. */
static void check_part(const struct map *whole, unsigned first, size_t n, size_t m) {
    const int fits = first + n <= BIEKKARUL_PAGES && first + m <= BIEKKARUL_PAGES;
    unsigned answer;
    memcpy(reads, held, sizeof held);
    memcpy(writes, held, sizeof held);
    answer = pages(first, reads, n, writes, m);
    expect("some of the pages", answer, fits ? 0 : TEN);
    check_told("reads", reads, whole->reads + (fits ? first : 0), fits ? n : 0);
    check_told("writes", writes, whole->writes + (fits ? first : 0), fits ? m : 0);
}

static void check_lengths(void) {
    static const unsigned lengths[] = {0,  1,  2,  7,  8,  9,  24,  31,  32,  33,  55, 56,
                                       57, 62, 63, 64, 65, 66, 192, 255, 256, 257, 320};
    const unsigned count = sizeof lengths / sizeof *lengths;
    unsigned first, i, j;
    struct map whole;
    load(MMC3, BIEKKARUL_BOARD, 16, 32);
    for (i = 0; i < 8; i++) {
        write_moved(0x8000, i);
        write_moved(0x8001, 9 * i + 4);
    }
    write_moved(0xA001, 0xC0); /* denied: reads and writes of 24 to 31 differ */
    whole = whole_map();
    for (first = 0; first < 256; first++) {
        for (i = 0; i < count; i++)
            for (j = 0; j < count; j++) check_part(&whole, first, lengths[i], lengths[j]);
        for (i = 0; i < ROOM; i++) {
            check_part(&whole, first, i, 0);
            check_part(&whole, first, 0, i);
        }
    }
}

/* The state in mapped, whatever it is: its pages are told exactly when it is one, and are those of its digits. */
static void check_state(size_t state_length) {
    uint64_t digits[BIEKKARUL_DIGITS];
    const unsigned wanted = biekkarul_digits(mapped.state, state_length, digits, BIEKKARUL_DIGITS);
    struct map m;
    memcpy(reads, held, sizeof held);
    memcpy(writes, held, sizeof held);
    expect("the pages of any state",
           biekkarul_pages(mapped.state, state_length, 0, reads, BIEKKARUL_PAGES, writes, BIEKKARUL_PAGES), wanted);
    if (wanted != 0) {
        check_told("no reads of what is no state", reads, held, 0);
        check_told("no writes of what is no state", writes, held, 0);
        return;
    }
    model_take_up(&model, digits);
    memcpy(m.reads, reads, sizeof m.reads);
    memcpy(m.writes, writes, sizeof m.writes);
    check_numbers(&m);
}

static void flip(unsigned bit) { mapped.state[bit / 8] ^= (uint8_t)(1u << bit % 8); }

/* From one state every other that differs in one or two bits, and states of other lengths. */
static void check_states_around(void) {
    const unsigned bits = 8 * BIEKKARUL_STATE_LENGTH;
    unsigned a, b;
    for (a = 0; a < bits; a++) {
        for (b = a; b < bits; b++) {
            flip(a);
            if (b != a) flip(b);
            check_state(BIEKKARUL_STATE_LENGTH);
            if (b != a) flip(b);
            flip(a);
        }
    }
    check_state(0);
    check_state(BIEKKARUL_STATE_LENGTH - 1);
    check_state(BIEKKARUL_STATE_LENGTH + 1);
    memset(mapped.state, 0, sizeof mapped.state);
    check_state(BIEKKARUL_STATE_LENGTH);
}

static void check_states(void) {
    unsigned mapper, mode, round;
    for (mapper = NROM; mapper <= MMC3; mapper++) {
        for (mode = BIEKKARUL_HOUSE; mode <= BIEKKARUL_BOARD; mode++) {
            load(mapper, mode, 2, mapper % 2 == 0 ? 0 : 4);
            for (round = 0; round < 12; round++) move_a_bank();
            check_states_around();
            load_marked(mapper, mode, 2, mapper % 2 == 0 ? 0 : 4, 0x00);
            check_states_around();
        }
    }
}

/* A refused write: no bit above its answer, and nothing changed. */
static void check_refused(const char *what, unsigned answer, unsigned wanted) {
    expect(what, answer, wanted);
    expect("after a refused write", (unsigned long)same_buffers(), 1);
}

static void check_refused_writes(void) {
    static const size_t states[3] = {0, BIEKKARUL_STATE_LENGTH - 1, BIEKKARUL_STATE_LENGTH + 1};
    static const size_t rams[3] = {0, BIEKKARUL_RAM_LENGTH - 1, BIEKKARUL_RAM_LENGTH + 1};
    const size_t state = BIEKKARUL_STATE_LENGTH, ram = BIEKKARUL_RAM_LENGTH;
    unsigned i;
    load(UXROM, BIEKKARUL_HOUSE, 2, 1);
    for (i = 0; i < 3; i++) {
        check_refused("state length", write_moved_with(states[i], image_length, ram, ram, 0x8000, 1), TEN);
        check_refused("PRG RAM length", write_moved_with(state, image_length, rams[i], ram, 0x8000, 1), NINE);
        check_refused("CHR RAM length", write_moved_with(state, image_length, ram, rams[i], 0x8000, 1), NINE);
        check_refused("9 before 10", write_moved_with(states[i], image_length, ram, rams[i], 0x8000, 1), NINE);
    }
    check_refused("another image", write_moved_with(state, image_length - 1, ram, ram, 0x8000, 1), TEN);
    check_refused("10 before 12", write_moved_with(state, image_length - 1, ram, ram, 0, 1), TEN);
    check_refused("12", write_moved(0x1FFF, 1), REFUSED(12));
    flip(8 * BIEKKARUL_STATE_LENGTH - 1);
    called = mapped;
    check_refused("no state", write_moved(0x8000, 1), TEN);
    load(CNROM, BIEKKARUL_HOUSE, 2, 1);
    check_refused("13", write_moved(0x2000, 1), REFUSED(13));
    load(MMC3, BIEKKARUL_HOUSE, 2, 1);
    expect("enable", write_moved(0xE001, 0), 0);
    called = mapped;
    check_refused("14", write_moved(0xE000, 1), REFUSED(14));
}

/* The names of the header are the numbers of docs/ABI.md. */
static void check_names(void) {
    static const unsigned kinds[6] = {BIEKKARUL_PAGE_IMAGE, BIEKKARUL_PAGE_PRG_RAM, BIEKKARUL_PAGE_CHR_RAM,
                                      BIEKKARUL_PAGE_NOWHERE, BIEKKARUL_PAGE_REFUSED, BIEKKARUL_PAGE_CALL};
    unsigned i;
    for (i = 0; i < 6; i++) expect("the number of a kind", kinds[i], i);
    expect("a page's kind", BIEKKARUL_PAGE_KIND(0x5FFFFFFFu), 5);
    expect("a page's offset", BIEKKARUL_PAGE_OFFSET(0x5FFFFFFEu), 0x0FFFFFFE);
    expect("the greatest image has room", BIEKKARUL_PAGE_OFFSET(50331663u), 50331663);
    expect("64 pages of 1 KB", BIEKKARUL_PAGES * BIEKKARUL_PAGE_LENGTH, 0x10000);
    expect("the bit of CHR", BIEKKARUL_CHR_MOVED, 1u << 16);
    expect("the bit of PRG", BIEKKARUL_PRG_MOVED, 1u << 17);
    expect("the bit of RAM", BIEKKARUL_RAM_MOVED, 1u << 18);
}

int main(void) {
    size_t i;
    for (i = HEADER_LENGTH; i < sizeof image; i++) image[i] = (uint8_t)(i * 31 + (i >> 10) * 7 + (i >> 18) * 101 + 1);
    memset(held, 0xA5, sizeof held);
    check_names();
    check_lengths();
    check_refused_writes();
    check_states();
    check_boards();
    check_prg_ram_pages();
    check_marked_boards();
    check_line();
    check_marks();
    printf("pages: %lu checks, %lu failed\n", checks, failures);
    return failures != 0;
}
