// Lent buffers for the drivers. Each stands in a mapping of its own, right against a page that nobody can touch: the
// one behind it, and in a second call the one before it. What is left of the mapping holds a marker, and is poisoned
// for AddressSanitizer, so that a byte that is read or written out of bounds ends the run.
//
// A call is made twice, once at each side of the mappings. Both must answer the same, and leave the same.
#ifndef LENT_H
#define LENT_H

#include <sanitizer/asan_interface.h>
#include <stdbool.h>
#include <stdint.h>
#include <stdio.h>
#include <stdlib.h>
#include <string.h>
#include <sys/mman.h>
#include <unistd.h>

#define MARK 0xee                      // every byte of a buffer that nothing else was put into
#define LENT_MOST ((size_t)512 * 1024) // the most bytes of a buffer
#define LENT_EDGE 256                  // how many bytes beside a buffer are looked at after a call

typedef struct lent {
    size_t bytes;
    bool written;          // whether the call may write it
    size_t gap, gap_bytes; // a struct's padding, which may hold anything after a call
    uint8_t *held;         // what it holds before a call
    uint8_t *left;         // what the call left in it
    uint8_t *at;           // where it stands during a call; null at times if it has no bytes
    uint8_t *mapping;
    uint8_t *place;
} lent;

static lent lents[10];
static size_t lents_used;

// What the run is about, for a failure's message.
static const char *doing = "nothing";

static void fail(const char *what) {
    fprintf(stderr, "\n%s: %s\n", doing, what);
    abort();
}

static void expect(bool right, const char *what) {
    if (!right) fail(what);
}

// Before an input: nothing is lent.
static void lend_nothing(void) {
    lents_used = 0;
}

static void *pages(size_t bytes) {
    void *p = mmap(NULL, bytes, PROT_NONE, MAP_PRIVATE | MAP_ANONYMOUS, -1, 0);
    if (p == MAP_FAILED) abort();
    return p;
}

// A buffer of so many bytes that holds the marker. What else it should hold is put into `held`.
static lent *lend(size_t bytes, bool written) {
    lent *l = &lents[lents_used++];
    if (lents_used > sizeof lents / sizeof *lents || bytes > LENT_MOST) abort();
    if (!l->mapping) {
        size_t page = (size_t)sysconf(_SC_PAGESIZE);
        l->mapping = (uint8_t *)pages(LENT_MOST + 2 * page) + page;
        if (mprotect(l->mapping, LENT_MOST, PROT_READ | PROT_WRITE) != 0) abort();
        memset(l->mapping, MARK, LENT_MOST);
        ASAN_POISON_MEMORY_REGION(l->mapping, LENT_MOST);
        l->held = malloc(LENT_MOST);
        l->left = malloc(LENT_MOST);
        if (!l->held || !l->left) abort();
    }
    l->bytes = bytes;
    l->written = written;
    l->gap_bytes = 0;
    memset(l->held, MARK, bytes);
    return l;
}

// Every buffer holds what it holds before a call, at one side of its mapping.
static void place_all(bool right) {
    for (size_t k = 0; k < lents_used; k++) {
        lent *l = &lents[k];
        l->place = right ? l->mapping + LENT_MOST - l->bytes : l->mapping;
        ASAN_UNPOISON_MEMORY_REGION(l->place, l->bytes);
        memcpy(l->place, l->held, l->bytes);
        l->at = l->bytes == 0 && !right ? NULL : l->place;
    }
}

__attribute__((no_sanitize("address"))) static bool is_marked(const uint8_t *from, const uint8_t *to) {
    for (; from < to; from++)
        if (*from != MARK) return false;
    return true;
}

// After a call: what it left is kept, and every mapping holds the marker again. What was only read is unchanged, and so
// is what stands beside a buffer.
static void take_all(void) {
    for (size_t k = 0; k < lents_used; k++) {
        lent *l = &lents[k];
        uint8_t *end = l->place + l->bytes, *most = l->mapping + LENT_MOST;
        memcpy(l->left, l->place, l->bytes);
        if (l->gap_bytes) memcpy(l->left + l->gap, l->held + l->gap, l->gap_bytes);
        memset(l->place, MARK, l->bytes);
        ASAN_POISON_MEMORY_REGION(l->place, l->bytes);
        expect(is_marked(l->place - l->mapping < LENT_EDGE ? l->mapping : l->place - LENT_EDGE, l->place),
               "a byte before a buffer is written");
        expect(is_marked(end, most - end < LENT_EDGE ? most : end + LENT_EDGE), "a byte behind a buffer is written");
        expect(l->written || memcmp(l->left, l->held, l->bytes) == 0, "a buffer that is only read is written");
    }
}

// Makes a call at both sides, and answers what it returned.
static uint64_t make(uint64_t (*call)(void)) {
    static uint8_t *first[sizeof lents / sizeof *lents];
    place_all(true);
    uint64_t answer = call();
    take_all();
    for (size_t k = 0; k < lents_used; k++) {
        if (!first[k] && !(first[k] = malloc(LENT_MOST))) abort();
        memcpy(first[k], lents[k].left, lents[k].bytes);
    }
    place_all(false);
    expect(call() == answer, "a second call answers something else");
    take_all();
    for (size_t k = 0; k < lents_used; k++)
        expect(memcmp(first[k], lents[k].left, lents[k].bytes) == 0, "a second call leaves something else");
    return answer;
}

// Whether a buffer holds what it held from a place on.
static bool is_old_from(const lent *l, size_t byte) {
    return byte <= l->bytes && memcmp(l->left + byte, l->held + byte, l->bytes - byte) == 0;
}

// ---- an input, byte by byte; zeros behind its end

static const uint8_t *input;
static size_t input_left;

static uint8_t byte(void) {
    if (input_left == 0) return 0;
    input_left--;
    return *input++;
}

static uint16_t word(void) {
    uint16_t high = byte();
    return (uint16_t)(high << 8 | byte());
}

// Numbers that hang on the input alone, for what is too long to stand in it.
static uint64_t drawn;

static uint32_t draw(void) {
    drawn += 0x9e3779b97f4a7c15;
    uint64_t z = drawn;
    z = (z ^ z >> 30) * 0xbf58476d1ce4e5b9;
    z = (z ^ z >> 27) * 0x94d049bb133111eb;
    return (uint32_t)(z >> 32);
}

static int32_t draw_within(int32_t most) {
    return (int32_t)(draw() % (2 * (uint32_t)most + 1)) - most;
}

// ---- lists and charts

#define RANGE 16383

static int32_t clamp(int32_t v) {
    return v < -RANGE ? -RANGE : v > RANGE ? RANGE : v;
}

// So many points of some shape, x and y at `put`; the list is in range. A long list may have to be `plain`: of points
// anywhere, so that a pass whose cost may grow with the square of a list drops few of them.
static void shape(size_t n, int32_t *put, bool plain) {
    int32_t x = 0, y = 0;
    unsigned kind = byte() % 12;
    if (plain && n > 300) kind = 8;
    drawn = kind == 0 ? 0 : word();
    int32_t dx = draw_within(7), dy = draw_within(7), big = 1 + (int32_t)(draw() % RANGE);
    for (size_t k = 0; k < n; k++) {
        int32_t t = (int32_t)k;
        switch (kind) {
        case 0: x = clamp((int16_t)word()), y = clamp((int16_t)word()); break;       // as it stands in the input
        case 1: x = (int8_t)byte(), y = (int8_t)byte(); break;
        case 2: x = clamp(x + draw_within(4)), y = clamp(y + draw_within(4)); break; // a shore of short steps
        case 3: x = dx * big / 7, y = dy * big / 7; break;                           // all equal
        case 4: x = clamp(t * dx / 2), y = clamp(t * dy / 2); break;                 // collinear
        case 5: x = t, y = t % 2 ? 4 * t : -4 * t; break;                            // splits at an end each time
        case 6: x = t / 4, y = t / 2 % 2 ? big : -big; break;                        // a comb
        case 7: x = (t + 1) / 2, y = t / 2; break;                                   // a staircase of single pixels
        case 8: x = draw_within(RANGE), y = draw_within(RANGE); break;
        case 9: x = draw_within(1), y = draw_within(1); break;
        case 10: x = t % 2 ? RANGE : -RANGE, y = clamp(t * big % (RANGE + 1)); break; // from side to side
        default: // one pixel at a time, at right angles
            if (draw() % 2) x = clamp(x + draw_within(1));
            else y = clamp(y + draw_within(1));
        }
        put[2 * k] = clamp(x), put[2 * k + 1] = clamp(y);
    }
    if (n > 1 && byte() % 3 == 1) put[2 * n - 2] = put[0], put[2 * n - 1] = put[1]; // closed
}

// The bytes of a chart, of some shape.
static void draw_chart(size_t width, size_t bytes, uint8_t *put) {
    unsigned kind = byte() % 8;
    size_t row = width ? (width - 1) / 8 + 1 : 1;
    drawn = kind < 2 ? 0 : word();
    uint32_t holes = draw() % 16;
    for (size_t k = 0; k < bytes; k++) {
        switch (kind) {
        case 0: put[k] = byte(); break;               // as it stands in the input
        case 1: put[k] = byte() ? 0xff : 0; break;
        case 2: put[k] = (uint8_t)draw(); break;      // half of the pixels
        case 3: put[k] = draw() % 16 < holes ? (uint8_t)draw() : 0xff; break;
        case 4: put[k] = draw() % 64 < holes ? (uint8_t)(0x80 >> draw() % 8) : 0; break;
        case 5: put[k] = k / row % 2 ? 0xaa : 0x55; break; // pixels that touch at their corners
        case 6: put[k] = k < row ? 0xff : k / row % 2 ? 0xf0 : 0xe0; break; // a comb of ragged teeth: a long outline
        default: put[k] = k / row % 2 && (k / row % 4 == 1 ? k % row : (k + 1) % row) ? 0 : 0xff; // a ribbon
        }
    }
}

#endif
