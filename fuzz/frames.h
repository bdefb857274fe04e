// Frames, as document 01 has them under "Frames": lines that ask, damaged at times, and what the answer to a line is.
// What is a frame is worked out here; the values of an answer come from the exported call that the frame asks for.
#ifndef FRAMES_H
#define FRAMES_H

#include "lent.h"
#include "sandline.h"

#define LINE_MOST LENT_MOST
#define FRAME_MOST 16384

// ---- what a line is answered

static char answer_text[2 * FRAME_MOST + 1];
static size_t answer_length;

static void put_bytes(uint64_t value, int bytes) {
    for (int k = 8 * bytes - 4; k >= 0; k -= 4) answer_text[answer_length++] = "0123456789abcdef"[value >> k & 15];
}

// The start of an answer; the values follow.
static void put_head(unsigned kind, unsigned number, size_t count) {
    answer_length = 0;
    put_bytes(kind, 1), put_bytes(number, 1), put_bytes(count, 2);
}

static int digit(uint8_t c) {
    if (c >= '0' && c <= '9') return c - '0';
    if (c >= 'a' && c <= 'f') return c - 'a' + 10;
    if (c >= 'A' && c <= 'F') return c - 'A' + 10;
    return -1;
}

// Puts the answer to a line in `answer_text`.
static void answer_line(const uint8_t *line, size_t digits) {
    static uint8_t frame[FRAME_MOST];
    static int32_t list[2 * 4096], kept[2 * 4096], scratch[2 * 4096];
    static uint8_t marks[4096];
    static double numbers[2047];
    size_t length = digits / 2, count = 0;
    bool good = digits > 0 && digits % 2 == 0 && length <= FRAME_MOST;
    for (size_t k = 0; good && k < digits; k++) {
        int d = digit(line[k]);
        good = d >= 0;
        frame[k / 2] = (uint8_t)(frame[k / 2] << 4 | (d & 15));
    }
    put_head(0xff, 11, 0);
    if (!good) return;

#define WORD(k) ((unsigned)frame[k] << 8 | frame[(k) + 1])
    unsigned kind = frame[0], number;
    if (kind == 1) {
        if (length < 10 || frame[1] > 1) return;
        size_t width = WORD(2), height = WORD(4);
        if (length != 10 + (width + 7) / 8 * height) return;
        number = sandline_walk(width, height, frame + 10, length - 10, (int16_t)WORD(6), (int16_t)WORD(8),
                               frame[1] == 1, kept, 2 * 4095, &count);
    } else if (kind >= 2 && kind <= 4) {
        size_t at = kind == 4 ? 1 : kind; // where the count stands
        if (length < at + 2 || length != at + 2 + 4 * (size_t)WORD(at) || (kind == 2 && frame[1] > 1)) return;
        size_t values = 2 * (size_t)WORD(at);
        for (size_t k = 0; k < values; k++) list[k] = (int16_t)WORD(at + 2 + 2 * k);
        if (kind == 2) number = sandline_simplify(list, values, frame[1] == 1, kept, 2 * 4096, &count);
        else if (kind == 3)
            number = sandline_reduce(list, values, WORD(1) / 16.0, kept, 2 * 4096, scratch, 2 * 4096, marks, 4096,
                                     &count);
        else number = sandline_numbers(list, values, numbers, 2047, &count);
    } else {
        return;
    }
#undef WORD
    put_head(kind | 0x80, number, count);
    for (size_t k = 0; k < (kind == 4 ? count : 2 * count); k++) {
        uint64_t bits;
        memcpy(&bits, &numbers[kind == 4 ? k : 0], 8);
        if (kind == 4) put_bytes(bits, 8);
        else put_bytes((uint16_t)kept[k], 2);
    }
}

// ---- lines that ask

static size_t put_frame_word(uint8_t *frame, size_t at, unsigned w) {
    frame[at] = (uint8_t)(w >> 8), frame[at + 1] = (uint8_t)w;
    return at + 2;
}

// A frame, mostly a good one; its length.
static size_t make_frame(uint8_t *frame) {
    static const uint16_t counts[] = {0, 1, 2, 3, 2046, 2047, 2048, 4093, 4094, 4095};
    static int32_t list[2 * 4096];
    uint8_t b = byte();
    unsigned kind = b < 8 ? b : 1 + b % 4;
    size_t at = 0;
    frame[at++] = (uint8_t)kind;
    if (kind < 3) frame[at++] = b == 8 ? 2 : b / 4 % 2;
    if (kind == 1) {
        b = byte();
        size_t width = b < 200 ? 1 + b % 40u : word() % 514u, height = b < 200 ? 1 + byte() % 40u : word() % 514u;
        size_t bytes = (width + 7) / 8 * height;
        if (bytes > FRAME_MOST - 10) height = 40, bytes = (width + 7) / 8 * height;
        at = put_frame_word(frame, at, (unsigned)width);
        at = put_frame_word(frame, at, (unsigned)height);
        uint8_t *start = frame + at;
        at = put_frame_word(frame, at, byte() % 8);
        at = put_frame_word(frame, at, byte() % 8);
        draw_chart(width, bytes, frame + at);
        b = byte();
        if (b < 200) { // where a walk may begin
            size_t k = 0, row = (width + 7) / 8;
            while (k < bytes && frame[at + k] == 0) k++;
            unsigned column = k < bytes ? 8 * (unsigned)(k % row) + (unsigned)__builtin_clz(frame[at + k]) - 24 : 0;
            put_frame_word(start, put_frame_word(start, 0, column), k < bytes ? (unsigned)(k / row) : 0);
        } else if (b < 208) {
            put_frame_word(start, 0, word());
        }
        return at + bytes;
    }
    b = byte();
    size_t n = b < 20 ? counts[b % 10] : b < 236 ? b % 30u : word() % 4096u;
    if (kind == 3) at = put_frame_word(frame, at, byte() % 4 ? byte() : word());
    if (kind == 3 && n > 4094) n = 4094;
    at = put_frame_word(frame, at, (unsigned)n + (byte() == 7));
    shape(n, list, kind == 2);
    if (n && byte() >= 240) list[word() % (2 * n)] = (int16_t)word();
    for (size_t k = 0; k < 2 * n; k++) at = put_frame_word(frame, at, (unsigned)list[k]);
    return at;
}

// A line of digits or of anything, with no end of line; its length.
static size_t make_line(uint8_t *line) {
    static const uint32_t longest[] = {8, 32766, 32767, 32768, 32769, 32770, 33791, 33792, 33793, 36864, 65536, 500000};
    static uint8_t frame[2 * FRAME_MOST];
    uint8_t b = byte();
    size_t n = 0;
    if (b < 16) { // what is left of the input, as it is
        while (input_left && n < LINE_MOST) line[n++] = byte();
        return n;
    }
    if (b < 20) { // one digit again and again, and another at the end
        size_t m = longest[byte() % 12];
        memset(line, byte(), m);
        line[m - 1] = byte();
        return m;
    }
    size_t bytes = 0;
    if (b < 64)
        while (input_left && bytes < FRAME_MOST) frame[bytes++] = byte();
    else bytes = make_frame(frame);
    b = byte();
    const char *digits = b % 16 == 1 ? "0123456789ABCDEF" : "0123456789abcdef";
    for (size_t k = 0; k < bytes; k++) {
        line[n++] = (uint8_t)digits[frame[k] >> 4];
        line[n++] = (uint8_t)digits[frame[k] & 15];
    }
    if (b >= 224 && n) { // damaged
        size_t k = (size_t)word() * 8 % n;
        switch (b % 6) {
        case 0: n--; break;
        case 1: line[n++] = '0'; break;
        case 2: line[k] = byte(); break;
        case 3: line[k] = (uint8_t)"0123456789abcdefABCDEF"[byte() % 22]; break;
        case 4: n = k; break;
        default: line[n++] = '0', line[n++] = byte();
        }
    }
    return n;
}

#endif
