/*
 * A trial of the exported functions through include/biekkarul.h. An input is a header, lengths and a list of
 * calls on one board; it may also put any bytes into the state. Each call is made twice, on buffers of its own:
 * of the library that the sanitizer watches, and of the library as it is shipped, whose functions are here as
 * shipped_load and so on (in the gate, without the sanitizer, both are the shipped one). They are held to what
 * biekkarul.h promises and, from an accepted load on, to the model: answers, RAMs and, after each call, every digit of
 * the state and all pages. A map of pages is kept as a caller keeps it, made anew only where an answer says so, and
 * must stay the whole one; reads and writes by the calls must be those of its pages. Where the input has put other bytes
 * into the state, the model says whether they are still a board's, and if so goes on from their digits.
 */
#include "lent.h"

/* The library as it is shipped: fuzz.sh gives its functions these names. */
uint16_t shipped_header(const uint8_t *, size_t, uint8_t *, size_t);
uint16_t shipped_load(const uint8_t *, size_t, uint8_t, uint8_t *, size_t, uint8_t *, size_t, uint8_t *, size_t);
uint16_t shipped_read(const uint8_t *, size_t, const uint8_t *, size_t, const uint8_t *, size_t, const uint8_t *, size_t,
                      uint16_t);
uint16_t shipped_write(uint8_t *, size_t, const uint8_t *, size_t, uint8_t *, size_t, uint8_t *, size_t, uint16_t, uint8_t);
uint16_t shipped_clock(uint8_t *, size_t);
uint16_t shipped_digits(const uint8_t *, size_t, uint64_t *, size_t);
uint16_t shipped_pages(const uint8_t *, size_t, uint8_t, uint32_t *, size_t, uint32_t *, size_t);
uint32_t shipped_write_moved(uint8_t *, size_t, const uint8_t *, size_t, uint8_t *, size_t, uint8_t *, size_t, uint16_t,
                             uint8_t);

/* An input has before it the mode and the choice of a length. */
const size_t header_place = 2;

/* One set of lent buffers. */
struct board {
    uint8_t *state, *prg_ram, *chr_ram;
};

#define STATE_ROOM (BIEKKARUL_STATE_LENGTH + GUARD)
#define RAM_ROOM (BIEKKARUL_RAM_LENGTH + GUARD)

static uint8_t *image;
static size_t image_length, state_length, prg_length, chr_length;
static size_t filled = HEADER_LENGTH; /* as much of the image's room holds its data */
static struct board first, second, before;

static void make_board(struct board *b) {
    b->state = malloc(STATE_ROOM);
    b->prg_ram = malloc(RAM_ROOM);
    b->chr_ram = malloc(RAM_ROOM);
    MUST(b->state && b->prg_ram && b->chr_ram);
}

int LLVMFuzzerInitialize(int *count, char ***words) {
    (void)count, (void)words;
    image = malloc(MOST_IMAGE);
    MUST(image);
    ASAN_POISON_MEMORY_REGION(image, MOST_IMAGE);
    make_board(&first);
    make_board(&second);
    make_board(&before);
    return 0;
}

/* The same bytes at the start of every trial, so that what is found can be found again. */
static void start(struct board *b) {
    lend(b->state, STATE_ROOM, state_length);
    lend(b->prg_ram, RAM_ROOM, prg_length);
    lend(b->chr_ram, RAM_ROOM, chr_length);
    memset(b->state, 0xA5, state_length);
    memset(b->prg_ram, 0xA5, prg_length);
    memset(b->chr_ram, 0xA5, chr_length);
}

static void copy(struct board *to, const struct board *from) {
    memcpy(to->state, from->state, state_length);
    memcpy(to->prg_ram, from->prg_ram, prg_length);
    memcpy(to->chr_ram, from->chr_ram, chr_length);
}

static int same(const struct board *a, const struct board *b) {
    return !memcmp(a->state, b->state, state_length) && !memcmp(a->prg_ram, b->prg_ram, prg_length) &&
           !memcmp(a->chr_ram, b->chr_ram, chr_length);
}

/* How many bytes of RAM a call has changed. */
static unsigned changed(const uint8_t *was, const uint8_t *is, size_t length) {
    size_t i;
    unsigned count = 0;
    if (!memcmp(was, is, length)) return 0;
    for (i = 0; i < length; i++) count += was[i] != is[i];
    return count;
}

/* A length near the one that is asked for: mostly that one. */
static size_t near_length(unsigned choice, size_t asked) {
    if (choice < 240) return asked;
    if (choice < 248) return asked + choice - 244;
    return choice & 7;
}

/* Refusals that a call may answer with, as bits. */
#define BIT(n) (1ul << (n))
#define LOAD_REFUSALS (BIT(9) | BIT(10) | BIT(3) | BIT(4) | BIT(5) | BIT(16) | BIT(6) | BIT(7) | BIT(8))
#define READ_REFUSALS (BIT(9) | BIT(10) | BIT(11) | BIT(13))
#define WRITE_REFUSALS (BIT(9) | BIT(10) | BIT(12) | BIT(13) | BIT(14))

static int refused(unsigned answer, unsigned long numbers) {
    if (!BIEKKARUL_IS_REFUSED(answer)) return 0;
    MUST(BIEKKARUL_REFUSAL(answer) <= 16 && numbers & BIT(BIEKKARUL_REFUSAL(answer)));
    return 1;
}

/* Whether the model has this state: since an accepted load, or since it took up what an input put there. */
static int reached;
static struct model model;

static int lengths_right(void) {
    return state_length == BIEKKARUL_STATE_LENGTH && prg_length == BIEKKARUL_RAM_LENGTH &&
           chr_length == BIEKKARUL_RAM_LENGTH;
}

static void rams_as_the_model_has(void) {
    MUST(!memcmp(first.prg_ram, model.prg_ram, sizeof model.prg_ram));
    MUST(!memcmp(first.chr_ram, model.chr_ram, sizeof model.chr_ram));
}

#define DIGITS_ROOM (BIEKKARUL_DIGITS + GUARD)

/* What the model makes of the state's bytes: 40 digits, or 10. */
static unsigned wanted_of_digits(uint64_t *wanted, size_t length) {
    if (state_length != BIEKKARUL_STATE_LENGTH || length != BIEKKARUL_DIGITS) return REFUSED(10);
    return model_judges(first.state, wanted) ? 0 : REFUSED(10);
}

/* Reads the state into so many digits: 40 are written, or none where it is refused, and the room around stays. */
static unsigned read_digits(uint64_t *digits, size_t length) {
    uint64_t shipped[DIGITS_ROOM], held[DIGITS_ROOM], wanted[BIEKKARUL_DIGITS];
    size_t written;
    unsigned answer;
    memset(held, 0x5A, sizeof held);
    memcpy(digits, held, sizeof held);
    memcpy(shipped, held, sizeof held);
    lend((uint8_t *)digits, sizeof held, length * sizeof *digits);
    answer = biekkarul_digits(first.state, state_length, digits, length);
    ASAN_UNPOISON_MEMORY_REGION(digits, sizeof held);
    MUST(answer == shipped_digits(second.state, state_length, shipped, length));
    MUST(!memcmp(digits, shipped, sizeof shipped));
    MUST(answer == wanted_of_digits(wanted, length));
    written = answer == 0 ? BIEKKARUL_DIGITS : 0;
    MUST(!memcmp(digits, wanted, written * sizeof *wanted));
    MUST(!memcmp(digits + written, held + written, (DIGITS_ROOM - written) * sizeof *held));
    return answer;
}

/* Whether the state is a board's. */
static int is_state(void) {
    uint64_t digits[DIGITS_ROOM];
    return read_digits(digits, BIEKKARUL_DIGITS) == 0;
}

static void digits_as_the_model_has(void) {
    uint64_t digits[DIGITS_ROOM], wanted[BIEKKARUL_DIGITS];
    MUST(read_digits(digits, BIEKKARUL_DIGITS) == 0);
    model_digits(&model, wanted);
    MUST(!memcmp(digits, wanted, sizeof wanted));
}

/* Numbers of pages, with room around them. */
struct numbers {
    uint32_t reads[BIEKKARUL_PAGES + GUARD], writes[BIEKKARUL_PAGES + GUARD];
};

/* So many pages of the state, by both libraries and by the model, which goes by the state's digits alone. */
static unsigned ask_pages(unsigned page, size_t reads_length, size_t writes_length, struct numbers *told) {
    static struct model seen;
    struct numbers shipped, wanted;
    uint64_t digits[DIGITS_ROOM];
    int state_right = read_digits(digits, BIEKKARUL_DIGITS) == 0;
    unsigned answer;
    if (state_right) model_take_up(&seen, digits);
    memset(told, 0x5A, sizeof *told);
    shipped = wanted = *told;
    lend((uint8_t *)told->reads, sizeof told->reads, reads_length * sizeof *told->reads);
    lend((uint8_t *)told->writes, sizeof told->writes, writes_length * sizeof *told->writes);
    answer = biekkarul_pages(first.state, state_length, (uint8_t)page, told->reads, reads_length, told->writes,
                             writes_length);
    ASAN_UNPOISON_MEMORY_REGION(told, sizeof *told);
    MUST(answer == shipped_pages(second.state, state_length, (uint8_t)page, shipped.reads, reads_length, shipped.writes,
                                 writes_length));
    MUST(!memcmp(told, &shipped, sizeof shipped));
    MUST(answer == model_pages(&seen, state_right, page, wanted.reads, reads_length, wanted.writes, writes_length));
    MUST(!memcmp(told, &wanted, sizeof wanted));
    return answer;
}

/* The map that a caller keeps, which parts of it the last call asks to be made anew, and how often it was looked at. */
static struct numbers map;
static unsigned stale, turn;

#define CHR_PAGES 8u
#define FIRST_RAM_PAGE 24u
#define RAM_PAGES 8u
#define FIRST_PRG_PAGE 32u
#define ALL_STALE 1u

static void fill(unsigned page, size_t reads_length, size_t writes_length) {
    struct numbers told;
    MUST(ask_pages(page, reads_length, writes_length, &told) == 0);
    memcpy(map.reads + page, told.reads, reads_length * sizeof *told.reads);
    memcpy(map.writes + page, told.writes, writes_length * sizeof *told.writes);
}

static void refill(void) {
    if (stale & ALL_STALE) fill(0, BIEKKARUL_PAGES, BIEKKARUL_PAGES);
    if (stale & BIEKKARUL_CHR_MOVED) fill(0, CHR_PAGES, CHR_PAGES);
    if (stale & BIEKKARUL_PRG_MOVED) fill(FIRST_PRG_PAGE, BIEKKARUL_PAGES - FIRST_PRG_PAGE, 0);
    if (stale & BIEKKARUL_RAM_MOVED) fill(FIRST_RAM_PAGE, RAM_PAGES, RAM_PAGES);
    stale = 0;
}

/* What a read through its page answers. */
static unsigned read_through(unsigned address) {
    const uint32_t page = map.reads[address / BIEKKARUL_PAGE_LENGTH], offset = BIEKKARUL_PAGE_OFFSET(page);
    const size_t at = offset + address % BIEKKARUL_PAGE_LENGTH;
    switch (BIEKKARUL_PAGE_KIND(page)) {
    case BIEKKARUL_PAGE_IMAGE: MUST(at < image_length); return image[at];
    case BIEKKARUL_PAGE_PRG_RAM: MUST(at < prg_length); return first.prg_ram[at];
    case BIEKKARUL_PAGE_CHR_RAM: MUST(at < chr_length); return first.chr_ram[at];
    case BIEKKARUL_PAGE_REFUSED: return REFUSED(offset);
    default: MUST(BIEKKARUL_PAGE_KIND(page) == BIEKKARUL_PAGE_NOWHERE); return 0;
    }
}

/* The map that was kept up is the whole one, and the calls read what its pages say: four of them after each call. */
static void map_as_the_calls_read(void) {
    struct numbers whole;
    unsigned page, address, called;
    refill();
    MUST(ask_pages(0, BIEKKARUL_PAGES, BIEKKARUL_PAGES, &whole) == 0);
    MUST(!memcmp(map.reads, whole.reads, BIEKKARUL_PAGES * sizeof *map.reads));
    MUST(!memcmp(map.writes, whole.writes, BIEKKARUL_PAGES * sizeof *map.writes));
    if (model.image_length != image_length) return; /* an input has put another length into the state */
    turn++;
    for (page = turn % 16; page < BIEKKARUL_PAGES; page += 16) {
        address = page * BIEKKARUL_PAGE_LENGTH + turn * 341 % BIEKKARUL_PAGE_LENGTH;
        called = biekkarul_read(first.state, state_length, image, image_length, first.prg_ram, prg_length,
                                first.chr_ram, chr_length, (uint16_t)address);
        MUST(called == read_through(address));
    }
}

/* A write that was not refused before its board was asked did what its page says, moving nothing but by the call. */
static void write_as_its_page_says(unsigned address, unsigned value, unsigned answer, unsigned moved) {
    const uint32_t page = map.writes[address / BIEKKARUL_PAGE_LENGTH], offset = BIEKKARUL_PAGE_OFFSET(page);
    const size_t at = offset + address % BIEKKARUL_PAGE_LENGTH;
    if (BIEKKARUL_PAGE_KIND(page) == BIEKKARUL_PAGE_CALL) return;
    MUST(moved == 0 && !memcmp(first.state, before.state, state_length));
    switch (BIEKKARUL_PAGE_KIND(page)) {
    case BIEKKARUL_PAGE_PRG_RAM: MUST(answer == 0 && at < prg_length && first.prg_ram[at] == value); break;
    case BIEKKARUL_PAGE_CHR_RAM: MUST(answer == 0 && at < chr_length && first.chr_ram[at] == value); break;
    case BIEKKARUL_PAGE_NOWHERE: MUST(answer == 0 && same(&first, &before)); break;
    default: MUST(BIEKKARUL_PAGE_KIND(page) == BIEKKARUL_PAGE_REFUSED && answer == REFUSED(offset));
    }
}

/* "Order in load: 9, 10" and then as the model says. */
static unsigned wanted_of_load(unsigned mode) {
    if (prg_length != BIEKKARUL_RAM_LENGTH || chr_length != BIEKKARUL_RAM_LENGTH) return REFUSED(9);
    if (state_length != BIEKKARUL_STATE_LENGTH || mode > 1) return REFUSED(10);
    return load_answer(image, image_length, mode);
}

static void do_load(unsigned mode) {
    struct board *a = &first, *b = &second;
    unsigned answer = biekkarul_load(image, image_length, (uint8_t)mode, a->state, state_length, a->prg_ram, prg_length,
                                     a->chr_ram, chr_length);
    MUST(answer == shipped_load(image, image_length, (uint8_t)mode, b->state, state_length, b->prg_ram, prg_length,
                                b->chr_ram, chr_length));
    MUST(answer == wanted_of_load(mode));
    if (refused(answer, LOAD_REFUSALS)) {
        MUST(same(&first, &before));
    } else {
        MUST(answer == 0 && lengths_right());
        model_load(&model, image, image_length, mode);
        reached = 1;
        stale = ALL_STALE;
        rams_as_the_model_has();
    }
}

/* What a read or a write with an image of this length is refused with before its board is asked, 0 for nothing. */
static unsigned wanted_first(size_t lent_length) {
    int rams_right = prg_length == BIEKKARUL_RAM_LENGTH && chr_length == BIEKKARUL_RAM_LENGTH;
    unsigned wanted = refused_first(rams_right, is_state(), lent_length != model.image_length);
    MUST(wanted != 0 || reached);
    return wanted;
}

static void do_read(unsigned address, size_t lent_length) {
    struct board *a = &first, *b = &second;
    unsigned wanted = wanted_first(lent_length);
    unsigned answer = biekkarul_read(a->state, state_length, image, lent_length, a->prg_ram, prg_length, a->chr_ram,
                                     chr_length, (uint16_t)address);
    MUST(answer == shipped_read(b->state, state_length, image, lent_length, b->prg_ram, prg_length, b->chr_ram,
                                chr_length, (uint16_t)address));
    MUST(refused(answer, READ_REFUSALS) || (lengths_right() && answer < 256));
    MUST(answer == (wanted == 0 ? model_read(&model, image, address) : wanted));
    MUST(same(&first, &before));
}

static int is_notice(unsigned answer) {
    return answer == BIEKKARUL_HORIZONTAL || answer == BIEKKARUL_VERTICAL || answer == BIEKKARUL_UPPER ||
           answer == BIEKKARUL_LOWER;
}

/* A plain write of both libraries: its answer, with no bit above it. */
static unsigned plain_write(unsigned address, unsigned value, size_t lent_length) {
    struct board *a = &first, *b = &second;
    unsigned answer = biekkarul_write(a->state, state_length, image, lent_length, a->prg_ram, prg_length, a->chr_ram,
                                      chr_length, (uint16_t)address, (uint8_t)value);
    MUST(answer == shipped_write(b->state, state_length, image, lent_length, b->prg_ram, prg_length, b->chr_ram,
                                 chr_length, (uint16_t)address, (uint8_t)value));
    return answer;
}

/* One that says which pages it moved. */
static unsigned telling_write(unsigned address, unsigned value, size_t lent_length) {
    struct board *a = &first, *b = &second;
    unsigned answer = biekkarul_write_moved(a->state, state_length, image, lent_length, a->prg_ram, prg_length,
                                            a->chr_ram, chr_length, (uint16_t)address, (uint8_t)value);
    MUST(answer == shipped_write_moved(b->state, state_length, image, lent_length, b->prg_ram, prg_length, b->chr_ram,
                                       chr_length, (uint16_t)address, (uint8_t)value));
    return answer;
}

static void do_write(unsigned address, unsigned value, size_t lent_length, int telling) {
    static struct model was;
    unsigned wanted = wanted_first(lent_length);
    unsigned said = telling ? telling_write(address, value, lent_length) : plain_write(address, value, lent_length);
    unsigned answer = said & 0xFFFF, moved = said - answer;
    if (refused(answer, WRITE_REFUSALS)) {
        MUST(moved == 0 && same(&first, &before));
    } else {
        MUST(lengths_right() && (answer == 0 || is_notice(answer)));
        MUST(changed(before.prg_ram, first.prg_ram, prg_length) +
                 changed(before.chr_ram, first.chr_ram, chr_length) <=
             1);
        MUST(address < 0x8000 || changed(before.prg_ram, first.prg_ram, prg_length) == 0);
    }
    was = model;
    MUST(answer == (wanted == 0 ? model_write(&model, address, value) : wanted));
    MUST(moved == (telling && wanted == 0 ? moved_bits(&was, &model) : 0));
    if (wanted == 0) write_as_its_page_says(address, value, answer, moved);
    stale |= telling ? moved : ALL_STALE;
    if (reached) rams_as_the_model_has();
}

static void do_clock(void) {
    unsigned answer = biekkarul_clock(first.state, state_length);
    MUST(answer == shipped_clock(second.state, state_length));
    MUST(refused(answer, BIT(10)) ? same(&first, &before) : answer <= 1);
    MUST(is_state() == !BIEKKARUL_IS_REFUSED(answer));
    MUST(!reached || answer == model_clock(&model));
}

/* Room for 40 digits, or for another count. */
static void do_digits(unsigned choice) {
    uint64_t digits[DIGITS_ROOM];
    read_digits(digits, near_length(choice, BIEKKARUL_DIGITS));
    MUST(same(&first, &before));
}

/* Any first page and any two counts of pages. */
static void do_pages(unsigned page, unsigned reads_length, unsigned writes_length) {
    struct numbers told;
    ask_pages(page, reads_length % (BIEKKARUL_PAGES + GUARD), writes_length % (BIEKKARUL_PAGES + GUARD), &told);
    MUST(same(&first, &before));
}

/* Refusals in the order of biekkarul.h: 10, 1, 2. */
static unsigned wanted_of_header(size_t fields_length) {
    if (fields_length != BIEKKARUL_FIELDS_LENGTH) return REFUSED(10);
    if (image_length < HEADER_LENGTH) return REFUSED(1);
    return is_ines(image) ? 0 : REFUSED(2);
}

static void do_header(unsigned choice) {
    uint8_t fields[BIEKKARUL_FIELDS_LENGTH + GUARD], shipped[BIEKKARUL_FIELDS_LENGTH + GUARD];
    size_t i, length = near_length(choice, BIEKKARUL_FIELDS_LENGTH);
    unsigned answer;
    memset(fields, 0x5A, sizeof fields);
    memset(shipped, 0x5A, sizeof shipped);
    lend(fields, sizeof fields, length);
    answer = biekkarul_header(image, image_length, fields, length);
    ASAN_UNPOISON_MEMORY_REGION(fields, sizeof fields);
    MUST(answer == shipped_header(image, image_length, shipped, length));
    MUST(!memcmp(fields, shipped, sizeof fields));
    MUST(answer == wanted_of_header(length));
    for (i = 0; i < length; i++) MUST(fields[i] == (answer == 0 ? image[4 + i] : 0x5A));
}

/* Any byte of the state, as an owner could spoil it. What is a board's still, the model takes up. */
static void spoil(unsigned place, unsigned value) {
    uint64_t digits[DIGITS_ROOM];
    if (state_length == 0) return;
    first.state[place % state_length] = second.state[place % state_length] = (uint8_t)value;
    reached = read_digits(digits, BIEKKARUL_DIGITS) == 0 && lengths_right();
    if (!reached) return;
    stale = ALL_STALE;
    model_take_up(&model, digits);
    memcpy(model.prg_ram, first.prg_ram, sizeof model.prg_ram);
    memcpy(model.chr_ram, first.chr_ram, sizeof model.chr_ram);
}

/* Bit 5 of a write's byte: it says which pages it moved. */
#define TELLING 0x20
/* Bit 6 of a call's byte: the image is lent a byte shorter than it was loaded. */
#define SHORTER_IMAGE 0x40
/* Bit 7: the rarer one of two kinds. */
#define RARER 0x80

static void one_call(struct input *in) {
    unsigned kind = take(in), address, value, more;
    size_t lent_length = kind & SHORTER_IMAGE && image_length > 0 ? image_length - 1 : image_length;
    copy(&before, &first);
    switch (kind % 8) {
    case 0:
    case 1: do_read(take2(in), lent_length); break;
    case 2:
    case 3:
    case 4:
        address = take2(in);
        value = take(in);
        do_write(address, value, lent_length, (kind & TELLING) != 0);
        break;
    case 5:
        if (kind & RARER) do_digits(take(in));
        else do_clock();
        break;
    case 6:
        address = take(in);
        if (kind & RARER) {
            value = take(in);
            spoil(address, value);
        } else {
            do_header(address);
        }
        break;
    default:
        address = take(in);
        if (kind & RARER) {
            do_load(address);
        } else {
            value = take(in);
            more = take(in);
            do_pages(address, value, more);
        }
    }
    MUST(same(&first, &second));
    if (reached) digits_as_the_model_has();
    if (reached) map_as_the_calls_read();
}

/* The choice of a length that stands for a wrong magic instead, with the right length. */
#define BAD_MAGIC 239
/* The one that stands for the length that the counts have without what NES 2.0 adds. */
#define AS_INES 238

/* Bytes of the image that are promised and not lent: none, but where the trial itself is tried (fuzz.sh). */
#ifndef LENT_SHORT
#define LENT_SHORT 0
#endif

/* The length that the header asks for in this mode; where it says more blocks than any load takes, the one of iNES. */
static size_t asked_length(unsigned choice, unsigned mode) {
    unsigned board_mode = mode == BIEKKARUL_BOARD, prg = prg_of(image, board_mode), chr = chr_of(image, board_mode);
    if (choice == AS_INES || prg > MOST_BLOCKS || chr > MOST_BLOCKS) return needed_length(image[4], image[5]);
    return needed_length(prg, chr);
}

static void fill_image(size_t length) {
    for (; filled < length; filled++) image[filled] = data_at(filled);
}

static size_t greater(size_t a, size_t b) { return a > b ? a : b; }

/* The header; the counts say how long the image is, but for what the input adds or takes. */
static void lend_image(struct input *in, unsigned mode) {
    static const uint8_t magic[4] = {0x4E, 0x45, 0x53, 0x1A};
    unsigned i, choice = take(in);
    size_t room = greater(image_length, HEADER_LENGTH); /* beyond what was lent before all is forbidden still */
    lend(image, room, room);
    memcpy(image, magic, sizeof magic);
    if (choice == BAD_MAGIC) image[take(in) & 3] ^= 1;
    for (i = 4; i < HEADER_LENGTH; i++) image[i] = (uint8_t)take(in);
    image_length = near_length(choice, asked_length(choice, mode));
    MUST(image_length <= MOST_IMAGE);
    room = greater(room, image_length);
    lend(image, room, room);
    fill_image(image_length);
    lend(image, room, image_length - LENT_SHORT);
}

int LLVMFuzzerTestOneInput(const uint8_t *bytes, size_t length) {
    struct input in = {bytes, length};
    unsigned mode_byte = take(&in), mode = mode_byte < 250 ? mode_byte & 1 : mode_byte;
    lend_image(&in, mode);
    state_length = near_length(take(&in), BIEKKARUL_STATE_LENGTH);
    prg_length = near_length(take(&in), BIEKKARUL_RAM_LENGTH);
    chr_length = near_length(take(&in), BIEKKARUL_RAM_LENGTH);
    start(&first);
    start(&second);
    start(&before);
    reached = 0;
    stale = turn = 0;
    do_load(mode);
    if (reached) digits_as_the_model_has();
    if (reached) map_as_the_calls_read();
    while (in.left > 0) one_call(&in);
    return 0;
}
