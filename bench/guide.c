// What each call costs on a Cortex-M, in instructions and in bytes of stack. bench/guide compiles it over the archive
// and runs it in an emulator, which counts one nanosecond for one instruction:
//
//     guide [WORD..]    a line for each row of the table below (with words, for each with such a word in its name):
//                       the table that it is for, the call, the list, the points of that, the answer's count,
//                       instructions, bytes of stack
//
// It ends with 1, and says why, where a call refuses or answers another count than is known, and where the emulator
// does not count as it should.
//
// A call is counted from its first instruction to its return. What calls it is counted too, by calling a function that
// does nothing in its place, and taken away. Its stack is what lies below the stack pointer that it is called with:
// arguments that its caller puts on the stack are the caller's.
#include <math.h>
#include <stdio.h>
#include <stdlib.h>
#include <string.h>

#include "sandline.h"

static void expect(bool right, const char *what, const char *name) {
    if (right) return;
    fprintf(stderr, "guide: %s%s%s\n", name, *name ? ": " : "", what);
    exit(1);
}

// ---- The board: its memory, and its timer.

// Where the program and what it keeps end; its stack is above that.
extern uint32_t end;

// A timer of the board's, which counts down at 25 MHz: one tick is 40 instructions.
enum { INSTRUCTIONS_A_TICK = 40 };
static volatile uint32_t *const timer = (volatile uint32_t *)0x40000000; // control, value, reload

static void start_timer(void) {
    timer[2] = timer[1] = UINT32_MAX;
    timer[0] = 1;
}

// Two million instructions, and not one more: two a round.
static uint32_t ticks_of_two_million(void) {
    uint32_t rounds = 1000000, from = timer[1];
    __asm__ volatile(".syntax unified\n1: subs %0, #1\n bne 1b" : "+l"(rounds) : : "cc");
    return from - timer[1];
}

// ---- Calls, and what stands in for them.

typedef void (*function)(void);

// What the function that does nothing has seen: the stack pointer that it was called with, and how often it was called.
// It takes so many instructions.
static volatile struct {
    uint32_t stack, calls;
} seen;
enum { INSTRUCTIONS_OF_NOTHING = 7 };

__attribute__((naked, noinline, used)) static void nothing(void) {
    __asm__(".syntax unified\n"
            "ldr r0, =seen\n mov r1, sp\n str r1, [r0]\n ldr r1, [r0, #4]\n adds r1, #1\n str r1, [r0, #4]\n bx lr\n"
            ".ltorg");
}

// All ones where nothing is called in a call's place, else 0: both ways take the same instructions.
static volatile uint32_t left_out;

static inline function either(function call) {
    return (function)(((uint32_t)call & ~left_out) | ((uint32_t)nothing & left_out));
}

#define CALL(call) ((__typeof__(call) *)either((function)(call)))

// ---- The lists, as src/lists.rs has them, and the outline of a diamond.

enum { SIDE = 512, ROW = SIDE / 8, CHART = ROW * SIDE, MOST = 4096, WORST = 1024, ROOTS = 4096 };

typedef struct {
    const char *name;
    uint32_t n;
    bool closed;
    int32_t points[2 * MOST];
} list;

static uint8_t coast[CHART], diamond[CHART], bars[CHART];

// What is walked on each chart, and what simplify leaves of it.
static list outline = {.name = "outline", .closed = true}, simplified = {.name = "outline, simplified", .closed = true},
            stairs = {.name = "diamond", .closed = true}, teeth = {.name = "teeth", .closed = true};

static list shore = {.name = "shore"}, collinear = {.name = "collinear"}, equal = {.name = "all equal"},
            zigzag = {.name = "zigzag"}, comb = {.name = "comb"};

// Points entered again, as many as a list may have.
static list one_run = {.name = "one run", .closed = true}, two_runs = {.name = "two runs", .closed = true};

static double squares[ROOTS];

static void set(uint8_t *chart, int x, int y) {
    chart[y * ROW + x / 8] |= (uint8_t)(0x80 >> x % 8);
}

// Two bars with teeth of one pixel above and below, held together by one of these.
static bool is_bar(int x, int y) {
    if (y == 7) return x >= 510;
    return y < 7 && (y == 3 ? x == 0 : y % 4 == 1 || x % 2 == 0);
}

// The coast, a ragged island that fills its chart; the diamond, all of whose edges are stairs of one pixel, which
// costs some thirty times as much to simplify; and the bars.
static void draw_charts(void) {
    for (int y = 0; y < SIDE; y++)
        for (int x = 0; x < SIDE; x++) {
            if (is_bar(x, y)) set(bars, x, y);
            int dx = 2 * x - (SIDE - 1), dy = 2 * y - (SIDE - 1);
            if (dx * dx + dy * dy + (7 * x + 13 * y) % 11 * 150 < SIDE * SIDE) set(coast, x, y);
            if (abs(x - 255) + abs(y - 255) <= 254) set(diamond, x, y);
        }
}

static void put(list *to, int32_t x, int32_t y) {
    to->points[2 * to->n] = x;
    to->points[2 * to->n + 1] = y;
    to->n++;
}

// The generator of all random choices: splitmix64.
static uint64_t state;

static uint64_t next(void) {
    state += 0x9e3779b97f4a7c15;
    uint64_t z = state;
    z = (z ^ (z >> 30)) * 0xbf58476d1ce4e5b9;
    z = (z ^ (z >> 27)) * 0x94d049bb133111eb;
    return z ^ (z >> 31);
}

static int32_t within(int32_t low, int32_t high) {
    return low + (int32_t)(next() % (uint64_t)(high - low + 1));
}

// A random walk of short steps.
static void draw_shore(void) {
    state = 10;
    int32_t reach = within(1, 6), x = within(-100, 100), y = within(-100, 100);
    for (int n = 0; n < MOST; n++) {
        put(&shore, x, y);
        x += within(-reach, reach);
        y += within(-reach, reach);
    }
}

// Doubles of all sizes, above zero.
static void draw_squares(void) {
    const uint64_t least = (uint64_t)1 << 52, most = (uint64_t)0x7fef << 48;
    state = 1;
    for (int k = 0; k < ROOTS; k++) {
        uint64_t bits = next() >> 1;
        if (bits < least) bits = least;
        if (bits > most) bits = most;
        memcpy(&squares[k], &bits, sizeof bits);
    }
}

// The outline of a chart from its first start.
static void walk_chart(const uint8_t *chart, list *to) {
    int32_t at[2];
    uint64_t n;
    expect(sandline_first_start(SIDE, SIDE, chart, CHART, at) == SANDLINE_DONE &&
               sandline_walk(SIDE, SIDE, chart, CHART, at[0], at[1], true, to->points, 2 * MOST, &n) == SANDLINE_DONE,
           "no outline", to->name);
    to->n = (uint32_t)n;
}

static void make_lists(void) {
    uint64_t n;
    draw_charts();
    draw_shore();
    draw_squares();
    for (int32_t i = 0; i < WORST; i++) {
        put(&collinear, 3 * i, i);
        put(&equal, 7, 7);
        put(&zigzag, i, i % 2 * i);
        put(&comb, i / 2 * 4, (i + 1) / 2 % 2 * 64);
    }
    for (int32_t i = 0; i < MOST; i++) {
        put(&one_run, 7, 7);
        put(&two_runs, 7 + i / (MOST / 2), 7 + i / (MOST / 2));
    }
    walk_chart(coast, &outline);
    walk_chart(diamond, &stairs);
    walk_chart(bars, &teeth);
    expect(sandline_simplify(outline.points, 2 * outline.n, true, simplified.points, 2 * MOST, &n) == SANDLINE_DONE,
           "not simplified", outline.name);
    simplified.n = (uint32_t)n;
    expect(outline.n == 1389 && simplified.n == 165 && stairs.n == 2037 && teeth.n == 4095,
           "another outline than is known", "");
}

// ---- What calls are lent, and what they answered: numbers or-ed together, counts added up.

static uint8_t refused;
static uint64_t answered;

static int32_t start[2], out[2 * MOST], kept[2 * MOST], scratch[2 * MOST];
static double numbers[MOST], kept_numbers[MOST], reals[2 * MOST], out_reals[4 * MOST], roots[ROOTS];
static uint8_t marks[MOST], corners[MOST], flags[2 * MOST], pixels[CHART];

// The list that `numbers` are of; and that which `reals` and `corners` are of.
static const list *numbers_of, *corners_of;

// Squared, and in pixels.
static const double six[] = {1 / 16.0, 1 / 4.0, 1, 4, 16, 64}, six_roots[] = {1 / 4.0, 1 / 2.0, 1, 2, 4, 8};

// ---- A redraw.

static void first_start(const list *of) {
    (void)of;
    refused |= CALL(sandline_first_start)(SIDE, SIDE, coast, CHART, start);
    answered += 1;
}

static void walk(const list *of) {
    uint64_t n = 0;
    const uint8_t *chart = of == &stairs ? diamond : coast;
    refused |= CALL(sandline_walk)(SIDE, SIDE, chart, CHART, of->points[0], of->points[1], true, out, 2 * MOST, &n);
    answered += n;
}

static void simplify(const list *of) {
    uint64_t n = 0;
    refused |= CALL(sandline_simplify)(of->points, 2 * of->n, true, out, 2 * MOST, &n);
    answered += n;
}

static void all_numbers(const list *of) {
    uint64_t n = 0;
    numbers_of = of;
    refused |= CALL(sandline_numbers)(of->points, 2 * of->n, numbers, MOST, &n);
    answered += n;
}

static void ready_numbers(const list *of) {
    if (numbers_of != of) all_numbers(of);
}

static void six_zooms(const list *of) {
    for (int k = 0; k < 6; k++) {
        uint64_t n = 0;
        refused |= CALL(sandline_zoom)(of->points, 2 * of->n, numbers, of->n, six[k], out, 2 * MOST, &n);
        answered += n;
    }
}

// First start and walk of the coast, simplify, the numbers of what is left, six zooms of it. How many points there are
// in between is known, so that the calls can be left out.
static void chain(const list *of) {
    uint64_t n = 0;
    refused |= CALL(sandline_first_start)(SIDE, SIDE, coast, CHART, start);
    refused |= CALL(sandline_walk)(SIDE, SIDE, coast, CHART, start[0], start[1], true, scratch, 2 * MOST, &n);
    refused |= CALL(sandline_simplify)(scratch, 2 * of->n, true, kept, 2 * MOST, &n);
    refused |= CALL(sandline_numbers)(kept, 2 * simplified.n, kept_numbers, MOST, &n);
    for (int k = 0; k < 6; k++) {
        n = 0;
        refused |= CALL(sandline_zoom)(kept, 2 * simplified.n, kept_numbers, simplified.n, six[k], out, 2 * MOST, &n);
        answered += n;
    }
}

// ---- Charts, spirals, pictures.

static void pixel(const list *of) {
    (void)of;
    answered += CALL(sandline_pixel)(SIDE, SIDE, coast, CHART, 255, 255);
}

static void area(const list *of) {
    uint64_t n = 0;
    (void)of;
    refused |= CALL(sandline_area)(SIDE, SIDE, coast, CHART, &n);
    answered += n;
}

static sandline_spiral_walker spiral_state;

static void spiral(const list *of) {
    (void)of;
    refused |= CALL(sandline_spiral)(16, &spiral_state);
    answered += spiral_state.area;
}

static void spiral_steps(const list *of) {
    sandline_spiral_walker at = spiral_state;
    (void)of;
    for (int k = 0; k < 256; k++) {
        uint64_t n = 0;
        refused |= CALL(sandline_spiral_advance)(&at, start, &n);
        answered += n;
    }
}

static void ready_spiral(const list *of) {
    (void)of;
    refused |= sandline_spiral(16, &spiral_state);
}

// The coast as a picture: raw, or plain as netpbm writes it, at most 70 digits on a line.
static uint8_t picture[2 * SIDE * SIDE];
static uint32_t picture_bytes;

static void put_byte(char byte) {
    picture[picture_bytes++] = (uint8_t)byte;
}

static void put_header(const char *header) {
    picture_bytes = 0;
    while (*header) put_byte(*header++);
}

static void ready_raw(const list *of) {
    (void)of;
    put_header("P4\n512 512\n");
    memcpy(picture + picture_bytes, coast, CHART);
    picture_bytes += CHART;
}

static void ready_plain(const list *of) {
    (void)of;
    put_header("P1\n512 512\n");
    for (int y = 0; y < SIDE; y++)
        for (int x = 0; x < SIDE; x++) {
            put_byte(sandline_pixel(SIDE, SIDE, coast, CHART, x, y) ? '1' : '0');
            if (x % 70 == 69 || x == SIDE - 1) put_byte('\n');
        }
    expect(picture_bytes == 266251, "another picture than netpbm's", "");
}

static void read_pbm(const list *of) {
    uint64_t width = 0, height = 0, n = 0;
    (void)of;
    refused |= CALL(sandline_read_pbm)(picture, picture_bytes, pixels, CHART, &width, &height, &n);
    answered += n;
}

static void write_pbm(const list *of) {
    uint64_t n = 0;
    (void)of;
    refused |= CALL(sandline_write_pbm)(SIDE, SIDE, coast, CHART, picture, sizeof picture, &n);
    answered += n;
}

// ---- Geometry and roots. The two lines cross in (1,1).

static const double rising[] = {0, 0, 2, 2}, falling[] = {0, 2, 2, 0};
static double crossing[4];

static void signed_area(const list *of) {
    int32_t twice = 0;
    (void)of;
    refused |= CALL(sandline_signed_area)((const int32_t[]){0, 0, 300, 0, 0, 200}, &twice);
    answered += (uint32_t)twice;
}

static void find_mid_point(const list *of) {
    (void)of;
    refused |= CALL(sandline_find_mid_point)(rising, crossing);
    answered += 1;
}

static void norm(const list *of) {
    (void)of;
    refused |= CALL(sandline_norm)(300.5, 400.25, crossing);
    answered += 1;
}

static void norm_i32(const list *of) {
    (void)of;
    refused |= CALL(sandline_norm_i32)(300, 401, crossing);
    answered += 1;
}

static void find_intersection(const list *of) {
    uint64_t n = 0;
    (void)of;
    refused |= CALL(sandline_find_intersection)(rising, falling, crossing, &n);
    answered += n;
}

static void ready_crossing(const list *of) {
    find_intersection(of);
}

static void ready_one_line(const list *of) {
    uint64_t n = 0;
    (void)of;
    refused |= sandline_find_intersection(rising, rising, crossing, &n);
    expect(n == 2, "not one line", "");
}

static void outside(const list *of) {
    (void)of;
    answered += CALL(sandline_outside)(crossing, 4);
}

static void inside(const list *of) {
    (void)of;
    answered += CALL(sandline_inside)(crossing, 4);
}

static void coincide(const list *of) {
    (void)of;
    answered += CALL(sandline_coincide)(crossing, 2);
}

static void root_of_two(const list *of) {
    (void)of;
    roots[0] = CALL(sandline_sqrt)(2);
    answered += 1;
}

static void root_bits_of_two(const list *of) {
    (void)of;
    answered += CALL(sandline_sqrt_bits)(0x4000000000000000);
}

static void all_roots(const list *of) {
    (void)of;
    for (int k = 0; k < ROOTS; k++) roots[k] = CALL(sandline_sqrt)(squares[k]);
    answered += ROOTS;
}

// ---- The passes of simplify, corners, smoothing, reductions.

static void remove_staircase(const list *of) {
    uint64_t n = 0;
    refused |= CALL(sandline_remove_staircase)(of->points, 2 * of->n, true, out, 2 * MOST, &n);
    answered += n;
}

static void limit_penalties(const list *of) {
    uint64_t n = 0;
    refused |= CALL(sandline_limit_penalties)(of->points, 2 * of->n, out, 2 * MOST, &n);
    answered += n;
}

// Turns of 135 degrees and more.
static void find_corners(const list *of) {
    uint64_t n = 0;
    refused |= CALL(sandline_find_corners)(of->points, 2 * of->n, -1, 1, of->closed, corners, MOST, &n);
    answered += n;
}

static void ready_corners(const list *of) {
    if (corners_of == of) return;
    corners_of = of;
    find_corners(of);
    for (uint32_t k = 0; k < 2 * of->n; k++) reals[k] = of->points[k];
}

// One round of ratio 8 and length 1.
static void subdivide(const list *of) {
    uint64_t n = 0;
    bool finished = false;
    refused |= CALL(sandline_subdivide_keep_corners)(reals, 2 * of->n, corners, of->n - of->closed, 8, 1, of->closed,
                                                     out_reals, 4 * MOST, flags, 2 * MOST, &n, &finished);
    answered += n;
}

static void six_radial(const list *of) {
    for (int k = 0; k < 6; k++) {
        uint64_t n = 0;
        refused |= CALL(sandline_simplify_radial_dist)(of->points, 2 * of->n, six[k], out, 2 * MOST, &n);
        answered += n;
    }
}

static void six_douglas_peucker(const list *of) {
    for (int k = 0; k < 6; k++) {
        uint64_t n = 0;
        refused |= CALL(sandline_simplify_douglas_peucker)(of->points, 2 * of->n, six[k], out, 2 * MOST, marks, MOST,
                                                           &n);
        answered += n;
    }
}

// Answered is how many distances were computed, and not the count.
static void six_douglas_peucker_counted(const list *of) {
    for (int k = 0; k < 6; k++) {
        uint64_t n = 0, distances = 0;
        refused |= CALL(sandline_simplify_douglas_peucker_counted)(of->points, 2 * of->n, six[k], out, 2 * MOST, marks,
                                                                   MOST, &n, &distances);
        answered += distances;
    }
}

static void numbers_counted(const list *of) {
    uint64_t n = 0, distances = 0;
    numbers_of = of;
    refused |= CALL(sandline_numbers_counted)(of->points, 2 * of->n, numbers, MOST, &n, &distances);
    answered += distances;
}

static void six_reduce(const list *of) {
    for (int k = 0; k < 6; k++) {
        uint64_t n = 0;
        refused |= CALL(sandline_reduce)(of->points, 2 * of->n, six_roots[k], out, 2 * MOST, scratch, 2 * MOST, marks,
                                         MOST, &n);
        answered += n;
    }
}

// ---- Frames.

static uint8_t frame[32768], answer[32768];
static uint32_t frame_digits;

static void put_digits(uint32_t value, int digits) {
    while (digits-- > 0) frame[frame_digits++] = (uint8_t) "0123456789abcdef"[value >> 4 * digits & 15];
}

static void put_frame(uint32_t kind, const list *of) {
    frame_digits = 0;
    put_digits(kind, 2);
    if (kind == 2) put_digits(1, 2);
    put_digits(of->n, 4);
    for (uint32_t k = 0; k < 2 * of->n; k++) put_digits((uint32_t)of->points[k], 4);
}

static void ready_simplify_frame(const list *of) {
    put_frame(2, of);
}

static void ready_numbers_frame(const list *of) {
    put_frame(4, of);
}

static void frame_answer(const list *of) {
    (void)of;
    answered += CALL(sandline_answer)(frame, frame_digits, answer, sizeof answer, 0);
}

// ---- The table: what a row is for, its call and its list, what is made ready and what is called, and the count that
// was answered when it was first measured. That is no test of the answer (bench/run holds these calls to the Rust's):
// it keeps a refusal, or another list, from being measured in its place.

typedef struct {
    const char *table, *call;
    const list *of;
    const char *input; // where it is no list
    void (*ready)(const list *of), (*run)(const list *of);
    uint64_t count;
} row;

static const row rows[] = {
    {"redraw", "walk", &outline, "coast", NULL, walk, 1389},
    {"redraw", "walk", &stairs, "diamond", NULL, walk, 2037},
    {"redraw", "simplify", &outline, NULL, NULL, simplify, 165},
    {"redraw", "simplify", &simplified, NULL, NULL, simplify, 133},
    {"redraw", "simplify", &shore, NULL, NULL, simplify, 3224},
    {"redraw", "simplify", &collinear, NULL, NULL, simplify, 2},
    {"redraw", "simplify", &equal, NULL, NULL, simplify, 2},
    {"redraw", "simplify", &zigzag, NULL, NULL, simplify, 1023},
    {"redraw", "simplify", &comb, NULL, NULL, simplify, 1024},
    {"redraw", "simplify", &stairs, NULL, NULL, simplify, 9},
    {"redraw", "numbers", &outline, NULL, NULL, all_numbers, 1389},
    {"redraw", "six zooms", &outline, NULL, ready_numbers, six_zooms, 2860},
    {"redraw", "numbers", &simplified, NULL, NULL, all_numbers, 165},
    {"redraw", "six zooms", &simplified, NULL, ready_numbers, six_zooms, 458},
    {"redraw", "numbers", &shore, NULL, NULL, all_numbers, 4096},
    {"redraw", "six zooms", &shore, NULL, ready_numbers, six_zooms, 15080},
    {"redraw", "numbers", &collinear, NULL, NULL, all_numbers, 1024},
    {"redraw", "six zooms", &collinear, NULL, ready_numbers, six_zooms, 12},
    {"redraw", "numbers", &equal, NULL, NULL, all_numbers, 1024},
    {"redraw", "six zooms", &equal, NULL, ready_numbers, six_zooms, 12},
    {"redraw", "numbers", &zigzag, NULL, NULL, all_numbers, 1024},
    {"redraw", "six zooms", &zigzag, NULL, ready_numbers, six_zooms, 6127},
    {"redraw", "numbers", &comb, NULL, NULL, all_numbers, 1024},
    {"redraw", "six zooms", &comb, NULL, ready_numbers, six_zooms, 5122},
    {"redraw", "numbers", &stairs, NULL, NULL, all_numbers, 2037},
    {"redraw", "six zooms", &stairs, NULL, ready_numbers, six_zooms, 4070},
    {"redraw", "the chain", &outline, "coast", NULL, chain, 458},

    {"calls", "pixel", NULL, "coast", NULL, pixel, 1},
    {"calls", "area", NULL, "coast", NULL, area, 205299},
    {"calls", "first start", NULL, "coast", NULL, first_start, 1},
    {"calls", "spiral", NULL, "a square of 16", NULL, spiral, 256},
    {"calls", "spiral advance, 256 steps", NULL, "a square of 16", ready_spiral, spiral_steps, 256},
    {"calls", "read PBM", NULL, "coast, raw", ready_raw, read_pbm, 32779},
    {"calls", "read PBM", NULL, "coast, plain", ready_plain, read_pbm, 266250},
    {"calls", "write PBM", NULL, "coast", NULL, write_pbm, 32779},
    {"calls", "signed area", NULL, "a triangle", NULL, signed_area, 60000},
    {"calls", "find mid point", NULL, "two points", NULL, find_mid_point, 1},
    {"calls", "norm", NULL, "a vector", NULL, norm, 1},
    {"calls", "norm i32", NULL, "a vector", NULL, norm_i32, 1},
    {"calls", "find intersection", NULL, "lines that cross", NULL, find_intersection, 4},
    {"calls", "outside", NULL, "lines that cross", ready_crossing, outside, 0},
    {"calls", "inside", NULL, "lines that cross", ready_crossing, inside, 1},
    {"calls", "coincide", NULL, "lines that are one", ready_one_line, coincide, 1},
    {"calls", "remove staircase", &outline, NULL, NULL, remove_staircase, 728},
    {"calls", "limit penalties", &outline, NULL, NULL, limit_penalties, 437},
    {"calls", "find corners", &outline, NULL, NULL, find_corners, 1388},
    {"calls", "find corners", &simplified, NULL, NULL, find_corners, 164},
    {"calls", "find corners", &teeth, NULL, NULL, find_corners, 4094},
    {"calls", "find corners", &one_run, NULL, NULL, find_corners, 4095},
    {"calls", "find corners", &two_runs, NULL, NULL, find_corners, 4095},
    {"calls", "subdivision, one round", &outline, NULL, ready_corners, subdivide, 1834},
    {"calls", "subdivision, one round", &simplified, NULL, ready_corners, subdivide, 277},
    {"calls", "radial pass, the six", &outline, NULL, NULL, six_radial, 4576},
    {"calls", "Douglas-Peucker, the six", &outline, NULL, NULL, six_douglas_peucker, 2860},
    {"calls", "Douglas-Peucker, the six", &simplified, NULL, NULL, six_douglas_peucker, 458},
    {"calls", "Douglas-Peucker, six, counted", &outline, NULL, NULL, six_douglas_peucker_counted, 71093},
    {"calls", "Douglas-Peucker, six, counted", &simplified, NULL, NULL, six_douglas_peucker_counted, 6114},
    {"calls", "numbers counted", &outline, NULL, NULL, numbers_counted, 17068},
    {"calls", "numbers counted", &simplified, NULL, NULL, numbers_counted, 1171},
    {"calls", "numbers counted", &zigzag, NULL, NULL, numbers_counted, 522753},
    {"calls", "reduce, the six", &outline, NULL, NULL, six_reduce, 2858},
    {"calls", "reduce, the six", &simplified, NULL, NULL, six_reduce, 458},
    {"calls", "root", NULL, "2", NULL, root_of_two, 1},
    {"calls", "root, bits", NULL, "2", NULL, root_bits_of_two, 0x3ff6a09e667f3bcd},
    {"calls", "root, 4,096 of them", NULL, "doubles of all sizes", NULL, all_roots, ROOTS},
    {"calls", "answer, a simplify frame", &outline, NULL, ready_simplify_frame, frame_answer, 8 + 8 * 165},
    {"calls", "answer, a numbers frame", &simplified, NULL, ready_numbers_frame, frame_answer, 8 + 16 * 165},
};

// ---- Counting.

// A call is made 256 times, or as often as fits into 100 million instructions, or once. The count may be two ticks off
// in all these runs together: so it is exact up to some 600,000 instructions, and else to one in a million.
enum { RUNS_MOST = 256, TICKS_MOST = 100000000 / INSTRUCTIONS_A_TICK };

// So many bytes of stack are painted before a call, more than any takes.
enum { STACK = 1 << 20, PAINT = 0x5a };

// What some runs take, with the calls or without. A call is called with the same stack pointer both ways.
typedef enum { WITH, WITHOUT } way;

__attribute__((noinline)) static uint32_t ticks(const row *of, uint32_t runs, way calls) {
    refused = 0;
    answered = 0;
    seen.calls = 0;
    left_out = calls == WITHOUT ? UINT32_MAX : 0;
    uint32_t from = timer[1];
    for (uint32_t k = 0; k < runs; k++) of->run(of->of);
    uint32_t to = timer[1];
    left_out = 0;
    return from - to;
}

// What was answered to the last runs is what is known.
static void look_at_answer(const row *of, const char *name, uint32_t runs) {
    expect(refused == 0, "refused", name);
    expect(answered == runs * of->count, "another answer than is known", name);
    if (of->run == root_of_two) expect(roots[0] == sqrt(2), "another root", name);
    if (of->run == norm) expect(crossing[0] == sqrt(300.5 * 300.5 + 400.25 * 400.25), "another length", name);
    if (of->run == norm_i32) expect(crossing[0] == sqrt(300 * 300 + 401 * 401), "another length", name);
    if (of->run == all_roots)
        for (int k = 0; k < ROOTS; k++) expect(roots[k] == sqrt(squares[k]), "another root", name);
    if (of->run == find_mid_point) expect(crossing[0] == 1 && crossing[1] == 1, "another point", name);
    if (of->run == first_start)
        expect(start[0] == outline.points[0] && start[1] == outline.points[1], "another start", name);
    if (of->run == read_pbm) expect(memcmp(pixels, coast, CHART) == 0, "another chart", name);
}

static void measure(const row *of, const char *name) {
    if (of->ready) of->ready(of->of);
    expect(refused == 0, "not ready", name);

    uint32_t without = ticks(of, 1, WITHOUT), calls = seen.calls, stack = seen.stack;
    volatile uint8_t *here, *deepest;
    __asm__ volatile("mov %0, sp" : "=r"(here));
    expect((uint32_t)here - STACK > (uint32_t)&end, "no room for the stack", name);
    for (volatile uint8_t *at = here - STACK; at < here; at++) *at = PAINT;
    uint32_t with = ticks(of, 1, WITH);
    for (deepest = here - STACK; *deepest == PAINT;) deepest++;
    expect(deepest > here - STACK, "deeper than the painted stack", name);
    uint32_t bytes = (uint32_t)deepest < stack ? stack - (uint32_t)deepest : 0;
    look_at_answer(of, name, 1);
    uint64_t count = answered;

    // The shorter of the two may be the one with the call, by a tick.
    uint32_t each = with > without ? with - without : 1, runs = TICKS_MOST / each;
    if (runs > RUNS_MOST) runs = RUNS_MOST;
    if (runs > 1) {
        without = ticks(of, runs, WITHOUT);
        with = ticks(of, runs, WITH);
        look_at_answer(of, name, runs);
    } else {
        runs = 1;
    }
    int64_t more = ((int64_t)with - without) * INSTRUCTIONS_A_TICK + (int64_t)calls * runs * INSTRUCTIONS_OF_NOTHING;
    printf("%s\t%s\t%lu\t%llu\t%lld\t%lu\n", of->table, name, of->of ? (unsigned long)of->of->n : 0,
           (unsigned long long)count, (long long)(more + runs / 2) / runs, (unsigned long)bytes);
}

int main(int words, char **word) {
    static char text[BUFSIZ];
    setvbuf(stdout, text, _IOLBF, sizeof text);
    start_timer();
    uint32_t known = 2000000 / INSTRUCTIONS_A_TICK, counted = ticks_of_two_million();
    expect(counted - known <= 1, "the emulator's timer does not tick once in 40 instructions", "");
    make_lists();
    for (size_t k = 0; k < sizeof rows / sizeof *rows; k++) {
        char name[80];
        bool asked = words < 2;
        snprintf(name, sizeof name, "%s\t%s", rows[k].call, rows[k].input ? rows[k].input : rows[k].of->name);
        for (int w = 1; w < words; w++) asked |= strstr(name, word[w]) != NULL;
        if (asked) measure(&rows[k], name);
    }
    return 0;
}
