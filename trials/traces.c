/*
 * A trial of the program tracerun: its main stands here as tracerun_main, reads the trace that the input describes
 * from what cannot seek, and writes its text into a buffer of ours. The text is held to what a player of the same trace says, written here after
 * document 01 over the model of the boards.
 */
#include "lent.h"

#include <errno.h>
#include <stdarg.h>
#include <sys/types.h>
#include <unistd.h>

#define MOST_TRACE 65536u
#define MOST_TEXT 65536u

int tracerun_main(void);

/* An input that describes a trace has before it the form, the choice of what is spoilt and the mode. */
const size_t header_place = 3;

static uint8_t trace[MOST_TRACE], said[MOST_TEXT];
static char wanted[MOST_TEXT];
static size_t trace_length, trace_read, said_length, wanted_length;

/* tracerun's read, lseek and write, in place of the C library's; a read gives as little as the input asks for. */
static size_t most_at_once;

ssize_t tracerun_read(int from, void *to, size_t length) {
    size_t n = trace_length - trace_read;
    MUST(from == 0);
    if (n > length) n = length;
    if (n > most_at_once) n = most_at_once;
    memcpy(to, trace + trace_read, n);
    trace_read += n;
    return (ssize_t)n;
}

off_t tracerun_lseek(int from, off_t place, int whence) {
    MUST(from == 0);
    (void)place, (void)whence;
    errno = ESPIPE;
    return -1;
}

ssize_t tracerun_write(int to, const void *from, size_t length) {
    MUST(to == 1 && length <= MOST_TEXT - said_length);
    memcpy(said + said_length, from, length);
    said_length += length;
    return (ssize_t)length;
}

static void say(const char *form, ...) {
    va_list words;
    int n;
    va_start(words, form);
    n = vsnprintf(wanted + wanted_length, MOST_TEXT - wanted_length, form, words);
    va_end(words);
    MUST(n >= 0 && (size_t)n < MOST_TEXT - wanted_length);
    wanted_length += (size_t)n;
}

static size_t number(size_t place, unsigned bytes) {
    size_t n = 0;
    while (bytes-- > 0) n = n << 8 | trace[place++];
    return n;
}

#define MOST_TRACE_IMAGE 40976u
#define MOST_EVENTS 1024u

static int is_event(const uint8_t *event) {
    switch (event[0]) {
    case 0: return event[3] == 0;
    case 1: return 1;
    case 2: return event[1] == 0 && event[2] == 0 && event[3] == 0;
    default: return 0;
    }
}

static int is_trace(void) {
    size_t image_length, count, i;
    if (trace_length < 8 || trace[0] != 1) return 0;
    image_length = number(1, 4);
    if (image_length > MOST_TRACE_IMAGE || trace[5] > 1 || trace_length < 8 + image_length) return 0;
    count = number(6 + image_length, 2);
    if (count > MOST_EVENTS || trace_length != 8 + image_length + 4 * count) return 0;
    for (i = 0; i < count; i++)
        if (!is_event(trace + 8 + image_length + 4 * i)) return 0;
    return 1;
}

static struct model model;

static void play_event(const uint8_t *image, unsigned place, const uint8_t *event) {
    unsigned address = (unsigned)event[1] << 8 | event[2], answer;
    char letter = "RWC"[event[0]];
    if (letter == 'R') answer = model_read(&model, image, address);
    else if (letter == 'W') answer = model_write(&model, address, event[3]);
    else answer = model_clock(&model);
    if (BIEKKARUL_IS_REFUSED(answer)) say("%u %c !%u\n", place, letter, BIEKKARUL_REFUSAL(answer));
    else if (letter == 'R') say("%u R %02X\n", place, answer);
    else if (letter == 'W') say("%u W %c\n", place, answer == 0 ? '-' : (char)answer);
    else say("%u C %u\n", place, answer);
}

static void play(void) {
    size_t i, count, image_length;
    const uint8_t *image = trace + 6;
    unsigned answer;
    if (!is_trace()) {
        say("refused 15\n");
        return;
    }
    image_length = number(1, 4);
    count = number(6 + image_length, 2);
    answer = load_answer(image, image_length, trace[5]);
    if (BIEKKARUL_IS_REFUSED(answer)) {
        say("refused %u\n", BIEKKARUL_REFUSAL(answer));
        return;
    }
    model_load(&model, image, image_length, trace[5]);
    say("load %u %c %u %u\n", model.mapper, (char)model.header_mirroring, model.prg, model.chr);
    for (i = 0; i < count; i++) play_event(image, (unsigned)i, trace + 8 + image_length + 4 * i);
}

static void put(unsigned byte) {
    MUST(trace_length < MOST_TRACE);
    trace[trace_length++] = (uint8_t)byte;
}

static void put_number(size_t n, unsigned bytes) {
    while (bytes-- > 0) put((unsigned)(n >> 8 * bytes) & 255);
}

/* One event of four bytes; where bad ones may come, an odd kind is kept as it is. */
static void put_event(struct input *in, int may_be_bad) {
    unsigned kind = take(in), address = 0, value = 0;
    if (!may_be_bad || kind < 248) kind %= 3;
    if (kind != 2) address = take2(in);
    if (kind == 1 || kind > 2) value = take(in);
    put(kind);
    put_number(address, 2);
    put(value);
}

static uint8_t data[MOST_TRACE_IMAGE + 16];

int LLVMFuzzerInitialize(int *count, char ***words) {
    size_t i;
    (void)count, (void)words;
    for (i = 0; i < sizeof data; i++) data[i] = data_at(i);
    return 0;
}

/* A trace of an image with this header, then events until the input ends; the choice spoils its lengths at times. */
static void describe(struct input *in) {
    static const uint8_t magic[4] = {0x4E, 0x45, 0x53, 0x1A};
    unsigned choice = take(in), mode = take(in), i;
    uint8_t header[HEADER_LENGTH];
    size_t image_length, count_place, count = 0;
    memcpy(header, magic, sizeof magic);
    for (i = 4; i < HEADER_LENGTH; i++) header[i] = (uint8_t)take(in);
    image_length = HEADER_LENGTH + PRG_BLOCK * (size_t)header[4] + CHR_BLOCK * (size_t)header[5];
    if (choice == 237) header[take(in) & 3] ^= 1;
    if (choice >= 240) image_length = (image_length + choice - 248) & 0xFFFF;
    put(choice == 239 ? 0 : 1);
    put_number(image_length, 4);
    put(mode < 250 ? mode & 1 : mode);
    if (image_length > sizeof data) image_length = sizeof data;
    memcpy(trace + trace_length, data, image_length);
    memcpy(trace + trace_length, header, image_length < HEADER_LENGTH ? image_length : HEADER_LENGTH);
    trace_length += image_length;
    count_place = trace_length;
    put_number(0, 2);
    for (; in->left > 0 && trace_length + 4 <= MOST_TRACE; count++) put_event(in, choice == 236);
    trace[count_place] = (uint8_t)(count >> 8);
    trace[count_place + 1] = (uint8_t)count;
    if (choice == 238) put(0);
    if (choice == 235) trace_length--;
}

int LLVMFuzzerTestOneInput(const uint8_t *bytes, size_t length) {
    struct input in = {bytes, length};
    unsigned form = take(&in);
    trace_length = trace_read = said_length = wanted_length = 0;
    lend(trace, sizeof trace, sizeof trace);
    most_at_once = form & 1 ? 4093 : MOST_TRACE;
    if (form >= 240)
        while (in.left > 0 && trace_length < MOST_TRACE) put(take(&in));
    else
        describe(&in);
    lend(trace, sizeof trace, trace_length);
    MUST(tracerun_main() == 0);
    play();
    MUST(said_length == wanted_length && !memcmp(said, wanted, said_length));
    return 0;
}
