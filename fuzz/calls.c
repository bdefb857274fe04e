// A driver for libFuzzer: an input picks one of the exported calls, and all that is handed to it. Lists are mostly in
// range and rooms mostly enough; else a value is damaged, or a room or a length is one short, or none, or any.
//
// Held against document 01 after each call (lent.h makes it twice, between pages that cannot be touched):
// - The number is the least that applies. Which apply is worked out here, from the table "Numbers handed back". Of a
//   file it is what a reader here says, which is written from document 02, request 1/13.
// - Refused: the count is 0, all else that was lent holds what it held. Done: places past the answer do.
// - The points that a pass answers are points of its list, in their order; marks and flags are 0 or 1; simplify is its
//   two passes; a zoom by the numbers is what Douglas-Peucker answers; roots are the processor's; an outline begins and
//   ends at its start and goes along rows and columns; corners are those of document 02, request 2/13; what is written
//   of a chart is read back; and so on, at each call below.
#include <math.h>

#include "edges.h"
#include "lent.h"
#include "sandline.h"

static lent *points, *numbers, *corners, *pixels, *file, *out, *scratch, *marks, *count, *distances, *last, *told[2];
static size_t length, numbers_length, corners_length, width, height, bytes, room, scratch_room, mark_room, size;
static int32_t x, y;
static double ratio, segment, tolerance;
static bool flag;

static int32_t *ints(const lent *l) { return (int32_t *)(void *)l->held; }
static double *reals(const lent *l) { return (double *)(void *)l->held; }
static const int32_t *left_ints(const lent *l) { return (const int32_t *)(const void *)l->left; }
static const double *left_reals(const lent *l) { return (const double *)(const void *)l->left; }

#define AT(type, l) ((type *)(void *)(l)->at)
#define INTS(l) AT(int32_t, l)
#define REALS(l) AT(double, l)
#define COUNT AT(size_t, count)
#define DISTANCES AT(size_t, distances)

// ---- what is counted, for the end of a run

enum { MOST_NUMBER = 12 };
static uint64_t tally[32][MOST_NUMBER + 1]; // by call and number
static unsigned current;

// ---- the number that a call should give

static unsigned least;

// The number is given if nothing less applies.
static void applies(unsigned number, bool when) {
    if (when && (least == 0 || number < least)) least = number;
}

static size_t most(size_t a, size_t b) { return a > b ? a : b; }

// How many places n points ask for.
static size_t places(size_t n) { return n == 1 ? 2 : n; }

static bool is_out(int32_t v) { return v < -RANGE || v > RANGE; }
static bool is_out_real(double v) { return !(v >= -RANGE && v <= RANGE); }

static void judge_points(void) {
    bool bad = length % 2 == 1;
    for (size_t k = 0; k < length; k++) bad |= is_out(ints(points)[k]);
    applies(2, length > 8192);
    applies(3, bad);
}

static void judge_chart(void) {
    bool bad = width < 1 || width > 512 || height < 1 || height > 512;
    applies(1, bad || bytes < (width + 7) / 8 * height);
}

// The call refused: nothing is left but a count of 0.
static void expect_untouched(void) {
    for (size_t k = 0; k < lents_used; k++)
        if (&lents[k] != count && &lents[k] != distances) expect(is_old_from(&lents[k], 0), "a refusal writes");
    if (count) expect(*(const size_t *)(const void *)count->left == 0, "a refusal has a count");
    if (distances) expect(*(const size_t *)(const void *)distances->left == 0, "a refusal has distances");
}

// Makes the call; whether it is done. Every number is expected from `least` but those of `open`, a bit for each.
static bool is_done_or(uint64_t (*call)(void), unsigned open) {
    uint64_t number = make(call);
    expect(number <= MOST_NUMBER && number != 11, "a number that is none");
    tally[current][number]++;
    if (!(least == 0 && open >> number & 1)) expect(number == least, "not the least number that applies");
    if (number != 0) expect_untouched();
    return number == 0;
}

static bool is_done(uint64_t (*call)(void)) { return is_done_or(call, 0); }

static size_t counted(void) { return *(const size_t *)(const void *)count->left; }

// A call that refuses nothing.
static uint64_t answer_of(uint64_t (*call)(void)) {
    tally[current][0]++;
    return make(call);
}

// ---- lengths, rooms and values

static uint64_t wide(void) {
    uint64_t w = 0;
    for (int k = 0; k < 4; k++) w = w << 16 | word();
    return w;
}

static size_t some_count(void) {
    static const uint16_t edges[] = {0, 1, 2, 3, 4, 5, 16, 255, 2047, 2048, 4094, 4095, 4096, 4097, 5000};
    uint8_t b = byte();
    if (b < 40) return edges[b % (sizeof edges / sizeof *edges)];
    if (b < 240) return b % 24;
    return word() % 4200;
}

// A room, mostly what is asked for.
static size_t some_room(size_t asked, size_t element) {
    uint8_t b = byte();
    size_t r = asked;
    if (b >= 176) {
        switch (b % 8) {
        case 0: case 1: case 2: r = asked ? asked - 1 : 0; break;
        case 3: r = asked + 1; break;
        case 4: r = 2 * asked + 5; break;
        case 5: r = 0; break;
        case 6: r = byte(); break;
        default: r = asked / 2;
        }
    }
    return r * element > LENT_MOST ? LENT_MOST / element : r;
}

static int32_t some_int(void) {
    static const int32_t edges[] = {16383, -16383, 16384, -16384, INT32_MAX, INT32_MIN, 32767, -32768, 46341, -1, 0};
    uint8_t b = byte();
    return b < 128 ? edges[b % (sizeof edges / sizeof *edges)] : (int32_t)wide();
}

static double of_bits(uint64_t bits) {
    double d;
    memcpy(&d, &bits, sizeof d);
    return d;
}

static uint64_t bits_of(double d) {
    uint64_t bits;
    memcpy(&bits, &d, sizeof bits);
    return bits;
}

static double some_real(void) {
    static const double edges[] = {0.0,    -0.0,  NAN,    -NAN, INFINITY, -INFINITY,    16383,  -16383, 16384,
                                   -16384, 65536, 65537,  1,    1000,     1001,         0.5,    5e-324, -5e-324,
                                   1e308,  -1e308, 1e-308, 2,    4294967296, 4294967297, 1e-7,  1e-3,   -1};
    uint8_t b = byte();
    double d = edges[b % (sizeof edges / sizeof *edges)];
    if (b < 54) return d;
    if (b < 80) return nextafter(d, INFINITY);
    if (b < 108) return nextafter(d, -INFINITY);
    if (b < 128) return of_bits(wide());
    if (b < 192) return word() / 16.0;
    return (int16_t)word() / 256.0;
}

static double some_tolerance(void) {
    uint8_t b = byte();
    return b < 96 ? some_real() : b < 176 ? b % 16 / 4.0 : b < 224 ? (double)b * b : word();
}

// A list of points, mostly good.
static void lend_points(bool plain) {
    size_t n = some_count();
    length = 2 * n;
    points = lend(2 * n * sizeof(int32_t), false);
    shape(n, ints(points), plain);
    uint8_t b = byte();
    if (b >= 216 && length) { // some values are damaged, or the last is lost
        for (int k = b % 4; k >= 0; k--) ints(points)[word() % length] = some_int();
        if (b % 8 == 0) points->bytes = --length * sizeof(int32_t);
    }
}

// The same of doubles, for a list that may have fractions.
static void lend_reals(void) {
    static int32_t whole[2 * 5000];
    size_t n = some_count();
    length = 2 * n;
    points = lend(length * sizeof(double), false);
    shape(n, whole, false);
    uint8_t b = byte();
    for (size_t k = 0; k < length; k++) reals(points)[k] = b % 2 ? whole[k] / 16.0 : whole[k];
    if (b >= 216 && length) {
        for (int k = b % 4; k >= 0; k--) reals(points)[word() % length] = some_real();
        if (b % 8 == 0) points->bytes = --length * sizeof(double);
    }
}

static void lend_chart(void) {
    static const size_t edges[] = {0, 1, 2, 3, 7, 8, 9, 15, 16, 17, 63, 64, 65, 511, 512, 513, 1024,
                                   SIZE_MAX, SIZE_MAX - 6, (size_t)1 << 32, (size_t)1 << 61, (size_t)1 << 63};
    size_t *sizes[] = {&width, &height};
    for (int k = 0; k < 2; k++) {
        uint8_t b = byte();
        *sizes[k] = b < 64 ? edges[b % (sizeof edges / sizeof *edges)] : b < 240 ? b % 20u + 1 : 1 + word() % 512u;
    }
    bool sane = width <= 2048 && height <= 2048;
    bytes = some_room(sane ? (width + 7) / 8 * height : byte(), 1);
    pixels = lend(bytes, false);
    draw_chart(width, bytes, pixels->held);
}

static void lend_count(void) {
    count = lend(sizeof(size_t), true);
}

static void lend_out(size_t asked, size_t element) {
    room = some_room(asked, element);
    out = lend(room * element, true);
}

// ---- what is answered

// The answered points are points of the list, in their order. A single point may be answered twice.
static void expect_points_of_list(const int32_t *list, size_t n) {
    size_t kept = counted(), at = 0;
    const int32_t *answered = left_ints(out);
    expect(2 * kept <= room, "the count does not fit the room");
    expect(is_old_from(out, 2 * kept * sizeof(int32_t)), "a place past the answer is written");
    for (size_t k = 0; k < kept; k++) {
        if (n == 1) at = 0;
        while (at < n && memcmp(list + 2 * at, answered + 2 * k, 8) != 0) at++;
        expect(at < n, "a point that the list does not have, or not there");
        at++;
    }
}

// Marks start with a byte for each of some points, 1 for each that is kept. How many.
static size_t expect_marks(size_t kept) {
    size_t n = 0, ones = 0;
    while (n < mark_room && marks->left[n] <= 1) ones += marks->left[n++];
    expect(is_old_from(marks, n), "a mark that is not 0 or 1");
    expect(ones == kept || (n == 1 && kept == 2), "other marks than points kept");
    return n;
}

// ---- charts

static uint64_t call_pixel(void) { return sandline_pixel(width, height, pixels->at, bytes, x, y); }
static uint64_t call_area(void) { return sandline_area(width, height, pixels->at, bytes, COUNT); }
static uint64_t call_first_start(void) { return sandline_first_start(width, height, pixels->at, bytes, INTS(out)); }
static uint64_t call_walk(void) {
    return sandline_walk(width, height, pixels->at, bytes, x, y, flag, INTS(out), room, COUNT);
}

// Whether a pixel is set, by document 01.
static bool is_set(int64_t column, int64_t row) {
    if (column < 0 || row < 0 || (uint64_t)column >= width || (uint64_t)row >= height || width > 512) return false;
    uint64_t k = (uint64_t)row * ((width + 7) / 8) + (uint64_t)column / 8;
    return k < bytes && (pixels->held[k] >> (7 - column % 8) & 1);
}

static void run_pixel(void) {
    lend_chart();
    x = byte() % 2 ? byte() : some_int(), y = byte() % 2 ? byte() : some_int();
    expect(answer_of(call_pixel) == is_set(x, y), "the pixel is another");
}

// The set pixels; and the first of them, column and row in x and y.
static size_t look_through(void) {
    size_t set = 0;
    for (size_t row = height; row-- > 0;)
        for (size_t column = width; column-- > 0;)
            if (is_set((int64_t)column, (int64_t)row)) set++, x = (int32_t)column, y = (int32_t)row;
    return set;
}

static void run_area(void) {
    lend_chart();
    lend_count();
    judge_chart();
    if (is_done(call_area)) expect(counted() == look_through(), "the area is another");
}

static void run_first_start(void) {
    lend_chart();
    out = lend(2 * sizeof(int32_t), true);
    judge_chart();
    applies(8, least == 0 && look_through() == 0);
    if (is_done(call_first_start))
        expect(left_ints(out)[0] == x && left_ints(out)[1] == y, "the first start is another");
}

static void lend_walk(size_t r) {
    out->bytes = (room = r) * sizeof(int32_t);
    memset(out->held, MARK, out->bytes);
}

static void run_walk(void) {
    static int32_t outline[LENT_MOST / sizeof(int32_t)];
    lend_chart();
    flag = byte() % 2;
    uint8_t b = byte();
    lend_out(b % 4 ? LENT_MOST / sizeof(int32_t) : 2u * byte(), sizeof(int32_t));
    lend_count();
    judge_chart();
    x = byte() % 8, y = byte() % 8;
    if (b < 200 && least == 0) look_through();
    if (b > 240) x = some_int(), y = some_int();
    applies(3, is_out(x) || is_out(y));
    bool one = is_set(x, y);
    applies(8, one == is_set(x - (int64_t)1, y) && one == is_set(x, y - (int64_t)1) &&
                   one == is_set(x - (int64_t)1, y - (int64_t)1));
    if (!is_done_or(call_walk, 1 << 0 | 1 << 9 | 1 << 10)) return;

    size_t n = counted();
    const int32_t *p = left_ints(out);
    expect(n >= 2 && 2 * n <= room, "the count does not fit the room");
    expect(is_old_from(out, 2 * n * sizeof(int32_t)), "a place past the answer is written");
    expect(p[0] == x && p[1] == y && p[2 * n - 2] == x && p[2 * n - 1] == y, "the outline is not closed at its start");
    for (size_t k = 0; k + 1 < n; k++)
        expect((p[2 * k] == p[2 * k + 2]) != (p[2 * k + 1] == p[2 * k + 3]), "a run along no row or column");

    // The same in room that is just enough, and in one that is not.
    memcpy(outline, p, 2 * n * sizeof(int32_t));
    lend_walk(2 * n);
    expect(is_done(call_walk) && counted() == n && memcmp(out->left, outline, 2 * n * sizeof(int32_t)) == 0,
           "another outline in just enough room");
    lend_walk(2 * n - 1);
    least = 10;
    is_done(call_walk);
}

// ---- passes, zooms

static uint64_t call_staircase(void) {
    return sandline_remove_staircase(INTS(points), length, flag, INTS(out), room, COUNT);
}
static uint64_t call_penalties(void) {
    return sandline_limit_penalties(INTS(points), length, INTS(out), room, COUNT);
}
static uint64_t call_simplify(void) {
    return sandline_simplify(INTS(points), length, flag, INTS(out), room, COUNT);
}
static uint64_t call_radial(void) {
    return sandline_simplify_radial_dist(INTS(points), length, tolerance, INTS(out), room, COUNT);
}
static uint64_t call_douglas_peucker(void) {
    return sandline_simplify_douglas_peucker(INTS(points), length, tolerance, INTS(out), room, marks->at, mark_room,
                                             COUNT);
}
static uint64_t call_douglas_peucker_counted(void) {
    return sandline_simplify_douglas_peucker_counted(INTS(points), length, tolerance, INTS(out), room, marks->at,
                                                     mark_room, COUNT, DISTANCES);
}
static uint64_t call_reduce(void) {
    return sandline_reduce(INTS(points), length, tolerance, INTS(out), room, INTS(scratch), scratch_room, marks->at,
                           mark_room, COUNT);
}
static uint64_t call_numbers(void) { return sandline_numbers(INTS(points), length, REALS(out), room, COUNT); }
static uint64_t call_numbers_counted(void) {
    return sandline_numbers_counted(INTS(points), length, REALS(out), room, COUNT, DISTANCES);
}
static uint64_t call_zoom(void) {
    return sandline_zoom(INTS(points), length, REALS(numbers), numbers_length, tolerance, INTS(out), room, COUNT);
}

// Points, out and count of a pass; the refusals that all have.
static size_t lend_pass(bool plain) {
    lend_points(plain);
    size_t n = length / 2;
    lend_out(2 * places(n), sizeof(int32_t));
    lend_count();
    judge_points();
    applies(10, room < 2 * places(n));
    return n;
}

static void run_staircase(void) {
    size_t n = lend_pass(false);
    flag = byte() % 2;
    if (is_done(call_staircase)) expect_points_of_list(ints(points), n);
}

static void run_penalties(void) {
    size_t n = lend_pass(true);
    if (is_done(call_penalties)) expect_points_of_list(ints(points), n);
}

static void run_simplify(void) {
    static int32_t half[8192], whole[8192];
    size_t n = lend_pass(true), between = 0, kept = 0;
    flag = byte() % 2;
    if (!is_done(call_simplify)) return;
    expect_points_of_list(ints(points), n);
    expect(sandline_remove_staircase(ints(points), length, flag, half, 8192, &between) == 0 &&
               sandline_limit_penalties(half, 2 * between, whole, 8192, &kept) == 0 && kept == counted() &&
               memcmp(whole, out->left, 2 * kept * sizeof(int32_t)) == 0,
           "not what the two passes answer");
}

static void judge_tolerance(double widest) {
    applies(5, !(tolerance >= 0 && tolerance <= widest));
}

static void run_radial(void) {
    size_t n = lend_pass(false);
    tolerance = some_tolerance();
    judge_tolerance(4294967296);
    if (is_done(call_radial)) expect_points_of_list(ints(points), n);
}

// Points, tolerance and marks of Douglas-Peucker, and its refusals.
static size_t lend_douglas_peucker(void) {
    size_t n = lend_pass(false);
    tolerance = some_tolerance();
    mark_room = some_room(n, 1);
    marks = lend(mark_room, true);
    judge_tolerance(4294967296);
    applies(4, length == 0);
    applies(10, mark_room < n);
    return n;
}

static void run_douglas_peucker(void) {
    static int32_t zoomed[8194];
    static double own[4096];
    size_t n = lend_douglas_peucker(), kept = 0;
    if (!is_done(call_douglas_peucker)) return;
    expect_points_of_list(ints(points), n);
    expect(expect_marks(counted()) == n, "not a mark for each point");
    expect(sandline_numbers(ints(points), length, own, 4096, &kept) == 0 && kept == n &&
               sandline_zoom(ints(points), length, own, n, tolerance, zoomed, 8194, &kept) == 0 && kept == counted() &&
               memcmp(zoomed, out->left, 2 * kept * sizeof(int32_t)) == 0,
           "not what a zoom by the numbers answers");
}

static void lend_distances(void) {
    distances = lend(sizeof(size_t), true);
}

static size_t computed(void) { return *(const size_t *)(const void *)distances->left; }

// Document 02, 8/13: at most (n - 2)(n - 1) / 2, and 0 below two. And the points inside the whole list are looked at.
static void expect_distances(size_t n) {
    expect(computed() <= (n < 2 ? 0 : (n - 2) * (n - 1) / 2), "more distances than there can be");
    expect(computed() >= (n < 2 ? 0 : n - 2), "fewer distances than points inside");
}

// As the plain call, which answers the same.
static void run_douglas_peucker_counted(void) {
    static int32_t same[8194];
    static uint8_t same_marks[4096];
    size_t n = lend_douglas_peucker(), kept = 0;
    lend_distances();
    if (!is_done(call_douglas_peucker_counted)) return;
    expect_points_of_list(ints(points), n);
    expect(expect_marks(counted()) == n, "not a mark for each point");
    expect_distances(n);
    expect(sandline_simplify_douglas_peucker(ints(points), length, tolerance, same, 8194, same_marks, 4096, &kept) ==
                   0 &&
               kept == counted() && memcmp(same, out->left, 2 * kept * sizeof(int32_t)) == 0 &&
               memcmp(same_marks, marks->left, n) == 0,
           "not what the plain call answers");
}

static void run_reduce(void) {
    size_t n = lend_pass(false);
    tolerance = some_tolerance();
    scratch_room = some_room(2 * n, sizeof(int32_t));
    scratch = lend(scratch_room * sizeof(int32_t), true);
    mark_room = some_room(n, 1);
    marks = lend(mark_room, true);
    judge_tolerance(65536);
    applies(10, scratch_room < 2 * n || mark_room < n);
    if (!is_done(call_reduce)) return;
    expect_points_of_list(ints(points), n);
    if (n <= 2 || tolerance == 0) {
        expect(counted() == n && memcmp(out->left, points->held, points->bytes) == 0, "a list is not answered whole");
        expect(is_old_from(scratch, 0) && is_old_from(marks, 0), "scratch or marks of a list that is answered whole");
        return;
    }
    size_t radial = expect_marks(counted());
    expect(is_old_from(scratch, 2 * radial * sizeof(int32_t)), "scratch past the radial list is written");
    expect(memcmp(scratch->left, points->held, 8) == 0, "the radial list begins elsewhere");
}

// Points and places of the numbers, and their refusals.
static size_t lend_numbers(void) {
    lend_points(false);
    size_t n = length / 2;
    lend_out(places(n), sizeof(double));
    lend_count();
    judge_points();
    applies(4, length == 0);
    applies(10, room < places(n));
    return n;
}

static void run_numbers(void) {
    size_t n = lend_numbers();
    if (!is_done(call_numbers)) return;
    const double *list = left_reals(out);
    expect(counted() == n && is_old_from(out, n * sizeof(double)), "not a number for each point");
    for (size_t k = 0; k < n; k++)
        expect(k == 0 || k == n - 1 ? list[k] == INFINITY : list[k] >= 0 && list[k] <= 4294967296,
               "a number that no distance has");
}

// As the plain call, which answers the same; and as many distances as Douglas-Peucker computes at 0.
static void run_numbers_counted(void) {
    static double same[4096];
    static int32_t all_kept[8194];
    static uint8_t all_marks[4096];
    size_t n = lend_numbers(), made = 0, at_zero = 0;
    lend_distances();
    if (!is_done(call_numbers_counted)) return;
    expect(counted() == n && is_old_from(out, n * sizeof(double)), "not a number for each point");
    expect_distances(n);
    expect(sandline_numbers(ints(points), length, same, 4096, &made) == 0 && made == n &&
               memcmp(same, out->left, n * sizeof(double)) == 0,
           "not what the plain call answers");
    expect(sandline_simplify_douglas_peucker_counted(ints(points), length, 0, all_kept, 8194, all_marks, 4096, &made,
                                                     &at_zero) == 0 && at_zero == computed(),
           "other distances than by Douglas-Peucker at 0");
}

static void run_zoom(void) {
    size_t n = lend_pass(false);
    tolerance = some_tolerance();
    numbers_length = some_room(n, sizeof(double));
    numbers = lend(numbers_length * sizeof(double), false);
    size_t made = 0;
    if (byte() % 4 == 0 || numbers_length < n ||
        sandline_numbers(ints(points), length, reals(numbers), numbers_length, &made) != 0)
        for (size_t k = 0; k < numbers_length; k++) reals(numbers)[k] = byte() % 8 ? draw() % 64 / 4.0 : some_real();
    judge_tolerance(4294967296);
    applies(3, numbers_length != n);
    applies(4, length == 0);
    if (!is_done(call_zoom)) return;
    expect_points_of_list(ints(points), n);
}

// ---- geometry

static uint64_t call_sqrt(void) { return bits_of(sandline_sqrt(tolerance)); }
static uint64_t call_sqrt_bits(void) { return sandline_sqrt_bits(bits_of(tolerance)); }
static uint64_t call_signed_area(void) { return sandline_signed_area(INTS(points), INTS(out)); }
static uint64_t call_mid_point(void) { return sandline_find_mid_point(REALS(points), REALS(out)); }
static uint64_t call_norm(void) { return sandline_norm(ratio, segment, REALS(out)); }
static uint64_t call_norm_i32(void) { return sandline_norm_i32(x, y, REALS(out)); }
static uint64_t call_intersection(void) {
    return sandline_find_intersection(REALS(points), REALS(numbers), REALS(out), COUNT);
}
static uint64_t call_outside(void) { return sandline_outside(REALS(points), length); }
static uint64_t call_inside(void) { return sandline_inside(REALS(points), length); }
static uint64_t call_coincide(void) { return sandline_coincide(REALS(points), length); }

// The root that the processor works out, with document 01's NaN.
static uint64_t root_of(double d) {
    double r = sqrt(d);
    return r != r ? 0x7ff8000000000000 : bits_of(r);
}

static double any_real(void) {
    return byte() % 4 ? of_bits(wide()) : some_real();
}

static void run_sqrt(void) {
    tolerance = any_real();
    uint64_t r = answer_of(call_sqrt);
    double root = of_bits(r);
    expect(root != root ? root_of(tolerance) == 0x7ff8000000000000 : r == root_of(tolerance), "the root is another");
}

static void run_sqrt_bits(void) {
    tolerance = any_real();
    expect(answer_of(call_sqrt_bits) == root_of(tolerance), "the root is another");
}

static int32_t coordinate(void) {
    return byte() < 32 ? some_int() : (int16_t)word() / 2;
}

static double real_coordinate(void) {
    uint8_t b = byte();
    return b < 32 ? some_real() : b < 128 ? b % 8 : (int16_t)word() / (b % 2 ? 2.0 : 300.0);
}

// So many coordinates, in `l`; whether one is out of range.
static lent *lend_coordinates(size_t n) {
    lent *l = lend(n * sizeof(double), false);
    for (size_t k = 0; k < n; k++) {
        reals(l)[k] = real_coordinate();
        applies(3, is_out_real(reals(l)[k]));
    }
    return l;
}

static void run_signed_area(void) {
    points = lend(6 * sizeof(int32_t), false);
    int32_t *p = ints(points);
    for (int k = 0; k < 6; k++) {
        p[k] = coordinate();
        applies(3, is_out(p[k]));
    }
    out = lend(sizeof(int32_t), true);
    if (is_done(call_signed_area))
        expect(left_ints(out)[0] == (p[2] - p[0]) * (p[5] - p[1]) - (p[3] - p[1]) * (p[4] - p[0]),
               "the area is another");
}

static void run_mid_point(void) {
    points = lend_coordinates(4);
    out = lend(2 * sizeof(double), true);
    if (is_done(call_mid_point))
        for (int k = 0; k < 2; k++)
            expect(left_reals(out)[k] == (reals(points)[k] + reals(points)[k + 2]) / 2, "the midpoint is another");
}

static void run_norm(void) {
    ratio = real_coordinate(), segment = real_coordinate();
    applies(3, is_out_real(ratio) || is_out_real(segment));
    out = lend(sizeof(double), true);
    if (is_done(call_norm))
        expect(left_reals(out)[0] == sqrt(ratio * ratio + segment * segment), "the length is another");
}

static void run_norm_i32(void) {
    x = coordinate(), y = coordinate();
    applies(3, is_out(x) || is_out(y));
    out = lend(sizeof(double), true);
    if (is_done(call_norm_i32)) expect(left_reals(out)[0] == sqrt((double)(x * x + y * y)), "the length is another");
}

static void run_intersection(void) {
    points = lend_coordinates(4), numbers = lend_coordinates(4);
    if (byte() % 4 == 0) { // a line beside the first, or the same
        double shift = byte() % 3;
        for (int k = 0; k < 4; k++) reals(numbers)[k] = reals(points)[k] + (k % 2 ? shift : 0);
        least = 0;
        for (int k = 0; k < 4; k++) applies(3, is_out_real(reals(points)[k]) || is_out_real(reals(numbers)[k]));
    }
    out = lend(4 * sizeof(double), true);
    lend_count();
    if (!is_done(call_intersection)) return;
    size_t n = counted();
    const double *v = left_reals(out);
    expect(n == 0 || n == 2 || n == 4, "a count that no crossing has");
    expect(is_old_from(out, n * sizeof(double)), "a place past the answer is written");
    if (n == 2) expect(v[0] == (reals(points)[0] + reals(points)[2]) / 2, "lines that are one meet elsewhere");
    bool outside = sandline_outside(v, n), inside = sandline_inside(v, n), coincide = sandline_coincide(v, n);
    expect(n == 0 ? !outside && !inside && !coincide : outside != inside, "neither outside nor inside, or both");
    expect(n != 2 || coincide, "lines that are one do not coincide");
}

static void lend_crossing(void) {
    length = byte() % 8 ? byte() % 3u * 2 : byte();
    points = lend(length * sizeof(double), false);
    for (size_t k = 0; k < length; k++) reals(points)[k] = byte() % 2 ? byte() / 128.0 : some_real();
}

static void run_outside(void) {
    lend_crossing();
    expect(answer_of(call_outside) <= (length == 4), "outside, but no crossing");
}

static void run_inside(void) {
    lend_crossing();
    expect(answer_of(call_inside) <= (length == 4 || length == 2), "inside, but no crossing");
}

static void run_coincide(void) {
    lend_crossing();
    uint64_t answer = answer_of(call_coincide);
    const double *v = reals(points);
    expect(answer == (length == 2 || (length == 4 && v[2] != v[2] && v[3] != v[3])), "coincides, or not");
}

// ---- smoothing

static uint64_t call_corners(void) {
    return sandline_find_corners(INTS(points), length, x, y, flag, marks->at, mark_room, COUNT);
}
static uint64_t call_subdivide(void) {
    return sandline_subdivide_keep_corners(REALS(points), length, corners->at, corners_length, ratio, segment, flag,
                                           REALS(out), room, marks->at, mark_room, COUNT, AT(bool, last));
}

// Points are entered again: some of the first n take the place of the next, the last that of the first; or one of their
// coordinates does.
static void enter_again(size_t n) {
    uint8_t often = byte();
    if (often < 96) return;
    drawn = often;
    for (size_t k = 0; k < n; k++) {
        uint32_t r = draw();
        for (size_t v = 0; v < 2; v++)
            if (r % 256 < often && r >> (8 + 3 * v) & 7) ints(points)[2 * ((k + 1) % n) + v] = ints(points)[2 * k + v];
    }
}

// Where the nearest of the first n points is that differs from the one at k: before it, or behind it. "Wrapping on
// closed lists after the last is dropped. On an open list the search stops at the ends". If there is none it is k.
static size_t nearest(size_t n, size_t k, bool behind) {
    size_t most_steps = flag ? n - 1 : behind ? n - 1 - k : k;
    for (size_t steps = 1; steps <= most_steps; steps++) {
        size_t at = (behind ? k + steps : k + n - steps) % n;
        if (memcmp(ints(points) + 2 * at, ints(points) + 2 * k, 2 * sizeof(int32_t)) != 0) return at;
    }
    return k;
}

// Whether the point at k of the first n is a corner, by documents 01 and 02 (request 2/13).
static bool is_corner(size_t n, size_t k) {
    if (!flag && (k == 0 || k == n - 1)) return true;
    size_t before = nearest(n, k, false), behind = nearest(n, k, true);
    if (before == k || behind == k) return false;
    const int32_t *p = ints(points);
    int64_t x1 = p[2 * k] - p[2 * before], y1 = p[2 * k + 1] - p[2 * before + 1];
    int64_t x2 = p[2 * behind] - p[2 * k], y2 = p[2 * behind + 1] - p[2 * k + 1];
    return x * llabs(x1 * y2 - y1 * x2) - y * (x1 * x2 + y1 * y2) >= 0;
}

static void run_corners(void) {
    lend_points(false);
    size_t n = length / 2;
    flag = byte() % 2;
    uint8_t b = byte();
    x = b < 32 ? some_int() : b % 2 ? 0 : (int16_t)word() % 1002;
    y = b < 32 ? some_int() : b % 4 ? 1 : 1 + word() % 1000;
    size_t asked = flag && n ? n - 1 : n;
    enter_again(asked);
    mark_room = some_room(asked, 1);
    marks = lend(mark_room, true);
    lend_count();
    judge_points();
    applies(4, length == 0);
    applies(7, x < -1000 || x > 1000 || y < 1 || y > 1000);
    applies(10, mark_room < asked);
    if (!is_done(call_corners)) return;
    expect(counted() == asked && is_old_from(marks, asked), "not a flag for each point");
    for (size_t k = 0; k < asked; k++) expect(marks->left[k] <= 1, "a flag that is not 0 or 1");
    for (size_t k = 0; k < asked; k += 1 + asked / 512) // of a long list some
        expect(marks->left[k] == is_corner(asked, k), "a corner that is none, or the other way round");
}

static void run_subdivide(void) {
    lend_reals();
    size_t n = length / 2;
    flag = byte() % 2;
    corners_length = some_room(flag && n ? n - 1 : n, 1);
    corners = lend(corners_length, false);
    uint8_t dense = byte();
    drawn = dense;
    for (size_t k = 0; k < corners_length; k++) corners->held[k] = draw() % 256 < dense % 128u * 2;
    if (dense >= 240 && corners_length) corners->held[word() % corners_length] = byte();
    ratio = byte() < 48 ? some_real() : 1 + byte() / 8.0;
    segment = byte() < 48 ? some_real() : byte() / 16.0;
    size_t asked = n ? 2 * n - 1 : 0;
    lend_out(2 * asked, sizeof(double));
    mark_room = some_room(asked, 1);
    marks = lend(mark_room, true);
    lend_count();
    last = lend(sizeof(bool), true);
    last->held[0] = byte() % 2;

    bool bad = length % 2 == 1, bad_flags = corners_length != (flag ? n - 1 : n); // no count fits a closed list of none
    for (size_t k = 0; k < length; k++) bad |= is_out_real(reals(points)[k]);
    for (size_t k = 0; k < corners_length; k++) bad_flags |= corners->held[k] > 1;
    applies(2, length > 8192);
    applies(3, bad);
    applies(4, flag && n < 2);
    applies(6, bad_flags);
    applies(7, !(ratio >= 1 && ratio <= 1000) || !(segment >= 0 && segment <= 65536));
    applies(10, room < 2 * asked || mark_room < asked);
    if (!is_done(call_subdivide)) return;

    size_t got = counted(), flags = got && flag ? got - 1 : got, at = 0;
    const double *p = left_reals(out);
    expect(got >= n && got <= most(asked, n), "a count that no round answers");
    expect(is_old_from(out, 2 * got * sizeof(double)), "a place past the answer is written");
    expect(is_old_from(marks, flags), "a flag past the answer is written");
    for (size_t k = 0; k < flags; k++) expect(marks->left[k] <= 1, "a flag that is not 0 or 1");
    for (size_t k = 0; k < got && at < n; k++) // a closed list's last point is its first again
        if (memcmp(p + 2 * k, reals(points) + (flag && at == n - 1 ? 0 : 2 * at), 16) == 0) at++;
    expect(at == n, "a point of the list is lost");
    expect(last->left[0] <= 1 && (got > n || last->left[0] == 1), "finished, or not");
}

// ---- spirals

static uint64_t call_spiral(void) { return sandline_spiral(size, AT(sandline_spiral_walker, out)); }
static uint64_t call_spiral_advance(void) {
    return sandline_spiral_advance(AT(sandline_spiral_walker, out), INTS(scratch), COUNT);
}

static void lend_spiral(void) {
    out = lend(sizeof(sandline_spiral_walker), true);
    out->gap = offsetof(sandline_spiral_walker, cc) + sizeof(int32_t);
    out->gap_bytes = offsetof(sandline_spiral_walker, area) - out->gap;
}

static void run_spiral(void) {
    uint8_t b = byte();
    size = b < 16 ? (size_t)wide() : b < 128 ? b % 8u : b < 192 ? 509u + b % 8u : word() % 600u;
    lend_spiral();
    applies(1, size > 512);
    if (!is_done(call_spiral)) return;
    sandline_spiral_walker s;
    memcpy(&s, out->left, sizeof s);
    int32_t middle = (int32_t)size / 2 - 1;
    expect(s.area == size * size && s.step == 0 && s.x == middle && s.y == middle, "a fresh spiral is another");
}

static void run_spiral_advance(void) {
    sandline_spiral_walker s, after;
    memset(&s, 0, sizeof s);
    if (byte() % 2) {
        sandline_spiral(byte() % 2 ? byte() % 20 : word() % 513, &s);
        int32_t place[2];
        size_t one;
        for (unsigned steps = byte() % 4 ? byte() : word(); steps > 0; steps--)
            sandline_spiral_advance(&s, place, &one);
    } else {
        s.x = (int16_t)word() % 514, s.y = (int16_t)word() % 514, s.dir = byte() % 5, s.gx = byte() % 4 - 1;
        s.gy = byte() % 4 - 1, s.sq = word() % 1026, s.cc = word() % 1026;
        if (s.sq > 0 && byte() % 4) s.cc %= s.sq;
        s.area = byte() % 4 ? word() : wide() % 262146, s.step = byte() % 4 && s.area ? word() % s.area : word();
    }
    if (byte() % 8 == 7) {
        int32_t *fields[] = {&s.x, &s.y, &s.dir, &s.gx, &s.gy, &s.sq, &s.cc};
        *fields[byte() % 7] = some_int();
    }
    if (byte() % 16 == 15) s.area = wide();
    if (byte() % 16 == 15) s.step = wide();
    lend_spiral();
    memcpy(out->held, &s, sizeof s);
    scratch = lend(2 * sizeof(int32_t), true);
    lend_count();
    applies(1, s.x < -512 || s.x > 512 || s.y < -512 || s.y > 512 || s.dir < 0 || s.dir > 3 || s.gx < -1 || s.gx > 1 ||
                   s.gy < -1 || s.gy > 1 || s.sq < 1 || s.sq > 1024 || s.cc < 0 || s.cc >= s.sq || s.area > 262144 ||
                   s.step > s.area);
    if (!is_done(call_spiral_advance)) return;
    memcpy(&after, out->left, sizeof after);
    expect(counted() == (s.step < s.area), "a step where it has ended, or none before");
    if (counted() == 0) expect(is_old_from(out, 0) && is_old_from(scratch, 0), "an ended spiral writes");
    else expect(left_ints(scratch)[0] == (s.area == 1 ? 0 : s.x) && left_ints(scratch)[1] == (s.area == 1 ? 0 : s.y) &&
                    after.step == s.step + 1 && after.area == s.area,
                "a step from elsewhere");
}

// ---- pictures

static uint64_t call_read_pbm(void) {
    return sandline_read_pbm(file->at, length, out->at, room, AT(size_t, told[0]), AT(size_t, told[1]), COUNT);
}
static uint64_t call_write_pbm(void) {
    return sandline_write_pbm(width, height, pixels->at, bytes, out->at, room, COUNT);
}

enum { CHART_MOST = 64 * 512 };
static uint8_t made[LENT_MOST], rows[CHART_MOST]; // a file; and a chart's rows, without padding

static void put_made(uint8_t b) {
    if (length < LENT_MOST) made[length++] = b;
}

static void put_white(void) {
    put_made((uint8_t)" \t\n\v\f\r"[draw() % 6]);
}

static void put_comment(void) {
    put_made('#');
    for (unsigned k = draw() % 8; k > 0; k--) put_made((uint8_t)" #P1470\x80"[draw() % 8]);
    put_made(draw() % 2 ? '\n' : '\r');
}

// What stands before a size or the raster: mostly one byte of white space, at times nothing.
static void put_between(void) {
    uint8_t b = byte();
    unsigned k = b < 160 ? 1 : b % 8;
    for (; k > 0; k--) {
        if (b < 160 || draw() % 3) put_white();
        else put_comment();
    }
}

static void put_size(size_t value) {
    char digits[24];
    put_between();
    for (unsigned zeros = byte() < 16 ? byte() : 0; zeros > 0; zeros--) put_made('0');
    snprintf(digits, sizeof digits, "%zu", value);
    for (const char *d = digits; *d; d++) put_made((uint8_t)*d);
}

// The raster of a chart that is in range, with anything for its padding; plain, mostly with white space between rows.
static void put_raster(bool plain) {
    size_t row = (width + 7) / 8;
    uint8_t spaced = byte();
    draw_chart(width, row * height, rows);
    for (size_t k = 0; !plain && k < row * height; k++) put_made(rows[k]);
    for (size_t k = 0; plain && k < width * height; k++) {
        if (spaced < 128 ? k % width == 0 : draw() % 256 < spaced) put_white();
        put_made(rows[k / width * row + k % width / 8] >> (7 - k % width % 8) & 1 ? '1' : '0');
    }
}

// A file: a picture, mostly good; at times with something behind it, cut off, or with bytes changed.
static void make_file(void) {
    static const size_t edges[] = {0, 1, 2, 7, 8, 9, 16, 17, 511, 512, 513, SIZE_MAX};
    bool plain = byte() % 2;
    size_t *sizes[] = {&width, &height};
    length = 0;
    drawn = word();
    put_made('P'), put_made(plain ? '1' : '4');
    for (int k = 0; k < 2; k++) {
        uint8_t b = byte();
        *sizes[k] = b < 48 ? edges[b % (sizeof edges / sizeof *edges)] : b < 250 ? b % 20u + 1 : 1 + word() % 512u;
        put_size(*sizes[k]);
    }
    put_between();
    if (width >= 1 && width <= 512 && height >= 1 && height <= 512) put_raster(plain);
    uint8_t b = byte();
    if (b < 128) return;
    for (unsigned k = b % 4; k > 0; k--) put_made(byte());
    if (b >= 192) length = b % 2 ? length - 1 : word() % (length + 1);
    for (unsigned k = b >= 160 && length ? b % 3 : 0; k > 0; k--) made[word() % (b % 5 ? length : 1)] = byte();
}

static bool is_white(size_t at) { return made[at] == ' ' || (made[at] >= '\t' && made[at] <= '\r'); }
static bool ends_line(size_t at) { return made[at] == '\n' || made[at] == '\r'; }

// Reads a size behind white space and comments, at least one of them; whether there is one. One that is out of range
// may come out as another such.
static bool size_at(size_t *at, size_t *value) {
    size_t from = *at, digits = 0;
    while (*at < length && (is_white(*at) || made[*at] == '#')) {
        if (made[*at] == '#')
            while (*at < length && !ends_line(*at)) ++*at;
        if (*at < length) ++*at;
    }
    if (*at == from) return false;
    for (*value = 0; *at < length && made[*at] >= '0' && made[*at] <= '9'; ++*at, digits++)
        if (*value < 1000) *value = *value * 10 + made[*at] - '0';
    return digits > 0;
}

// What document 02 says of the file: the number, whatever room there is, and of a picture its sizes, its rows and where
// it ends.
static unsigned look_at_file(size_t *end) {
    size_t at = 2;
    if (length < 2 || made[0] != 'P' || (made[1] != '1' && made[1] != '4')) return 12;
    if (!size_at(&at, &width) || !size_at(&at, &height)) return 12;
    if (width < 1 || width > 512 || height < 1 || height > 512) return 1;
    if (at == length || !(is_white(at) || made[at] == '#')) return 12;
    if (made[at] == '#')
        while (at + 1 < length && !ends_line(at)) at++;
    at++;
    size_t row = (width + 7) / 8;
    memset(rows, 0, row * height);
    for (size_t line = 0; line < height; line++)
        for (size_t column = 0; column < width; column++) {
            bool set;
            if (made[1] == '1') {
                while (at < length && is_white(at)) at++;
                if (at >= length || (made[at] != '0' && made[at] != '1')) return 12;
                set = made[at++] == '1';
            } else {
                size_t k = at + line * row + column / 8;
                if (k >= length) return 12;
                set = made[k] >> (7 - column % 8) & 1;
            }
            if (set) rows[line * row + column / 8] |= (uint8_t)(0x80 >> column % 8);
        }
    *end = made[1] == '1' ? at : at + row * height;
    return 0;
}

static void expect_picture(size_t end) {
    size_t asked = (width + 7) / 8 * height, sizes[2];
    for (int k = 0; k < 2; k++) memcpy(&sizes[k], told[k]->left, sizeof sizes[k]);
    expect(counted() == end, "the picture ends elsewhere");
    expect(sizes[0] == width && sizes[1] == height, "the sizes are others");
    expect(memcmp(out->left, rows, asked) == 0, "the pixels are others");
    expect(is_old_from(out, asked), "a byte past the chart is written");
}

static void run_read_pbm(void) {
    make_file();
    file = lend(length, false);
    memcpy(file->held, made, length);
    size_t end = 0;
    unsigned number = look_at_file(&end);
    applies(number, number != 0);
    lend_out(number == 0 ? (width + 7) / 8 * height : byte(), 1);
    for (int k = 0; k < 2; k++) told[k] = lend(sizeof(size_t), true);
    lend_count();
    applies(10, number == 0 && room < (width + 7) / 8 * height);
    if (!is_done(call_read_pbm)) return;
    expect_picture(end);

    // The same without what stands behind the picture; and without its last byte none.
    file->bytes = length = end;
    expect(is_done(call_read_pbm), "another picture without what stands behind it");
    expect_picture(end);
    file->bytes = --length;
    least = 12;
    is_done(call_read_pbm);
}

static void run_write_pbm(void) {
    static uint8_t back[CHART_MOST];
    char head[16];
    lend_chart();
    judge_chart();
    size_t row = (width + 7) / 8, asked = byte(), n = 0;
    if (least == 0) {
        n = (size_t)snprintf(head, sizeof head, "P4\n%zu %zu\n", width, height);
        asked = n + row * height;
    }
    lend_out(asked, 1);
    lend_count();
    applies(10, least == 0 && room < asked);
    if (!is_done(call_write_pbm)) return;
    expect(counted() == asked && memcmp(out->left, head, n) == 0, "another header");
    expect(is_old_from(out, asked), "a byte past the picture is written");
    for (size_t k = 0; k < row * 8 * height; k++) {
        size_t column = k % (row * 8), line = k / (row * 8);
        bool set = out->left[n + line * row + column / 8] >> (7 - column % 8) & 1;
        expect(set == is_set((int64_t)column, (int64_t)line), "a pixel is another, or padding is set");
    }
    size_t sizes[2], end;
    expect(sandline_read_pbm(out->left, asked, back, sizeof back, &sizes[0], &sizes[1], &end) == 0 && end == asked &&
               sizes[0] == width && sizes[1] == height && memcmp(back, out->left + n, row * height) == 0,
           "what is written is not read back");
}

// ---- all of them

static const struct {
    const char *name;
    void (*run)(void);
} all[] = {
    {"sandline_pixel", run_pixel},
    {"sandline_area", run_area},
    {"sandline_first_start", run_first_start},
    {"sandline_walk", run_walk},
    {"sandline_remove_staircase", run_staircase},
    {"sandline_limit_penalties", run_penalties},
    {"sandline_simplify", run_simplify},
    {"sandline_simplify_radial_dist", run_radial},
    {"sandline_simplify_douglas_peucker", run_douglas_peucker},
    {"sandline_reduce", run_reduce},
    {"sandline_numbers", run_numbers},
    {"sandline_zoom", run_zoom},
    {"sandline_sqrt", run_sqrt},
    {"sandline_sqrt_bits", run_sqrt_bits},
    {"sandline_signed_area", run_signed_area},
    {"sandline_find_mid_point", run_mid_point},
    {"sandline_norm", run_norm},
    {"sandline_norm_i32", run_norm_i32},
    {"sandline_find_intersection", run_intersection},
    {"sandline_outside", run_outside},
    {"sandline_inside", run_inside},
    {"sandline_coincide", run_coincide},
    {"sandline_find_corners", run_corners},
    {"sandline_subdivide_keep_corners", run_subdivide},
    {"sandline_spiral", run_spiral},
    {"sandline_spiral_advance", run_spiral_advance},
    {"sandline_read_pbm", run_read_pbm},
    {"sandline_write_pbm", run_write_pbm},
    {"sandline_simplify_douglas_peucker_counted", run_douglas_peucker_counted},
    {"sandline_numbers_counted", run_numbers_counted},
};
enum { CALLS = sizeof all / sizeof *all };

// At the end of a run, for fuzz/run: how often each was called, done and refused by which numbers.
static void print_tally(void) {
    uint64_t done = 0, refused = 0;
    for (unsigned k = 0; k < CALLS; k++) {
        printf("call %-42s", all[k].name);
        for (int n = 0; n <= MOST_NUMBER; n++) {
            *(n ? &refused : &done) += tally[k][n];
            if (tally[k][n]) printf(" %d:%llu", n, (unsigned long long)tally[k][n]);
        }
        printf("\n");
    }
    printf("calls, each at both sides: %llu done, %llu refused\n", (unsigned long long)done,
           (unsigned long long)refused);
}

int LLVMFuzzerInitialize(int *argc, char ***argv) {
    (void)argc, (void)argv;
    atexit(print_tally), atexit(print_edges);
    return 0;
}

int LLVMFuzzerTestOneInput(const uint8_t *data, size_t data_length) {
    input = data, input_left = data_length;
    lend_nothing();
    count = distances = NULL;
    least = 0;
    current = byte() % CALLS;
    doing = all[current].name;
    all[current].run();
    note_edges();
    return 0;
}
