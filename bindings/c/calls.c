// Calls every function of sandline.h with good and with refused input, and holds what it answers, and what every
// lent buffer holds afterwards, against what is expected. Prints a line for each call; ends with 1 if one differs.
//
// What is expected is nowhere taken from the library itself. The word in brackets says where it comes from:
//   01       document 01: its worked cases ("Both sides of each edge", P1 to P12 among them) and its rules
//   02       document 02, the request of that number
//   refusal  document 01, "Numbers handed back"
//   oracle   the answer of the original Rust to the same call (oracle/answer; the case is quoted beside it)
//   here     what sandline.h says of C: null with length 0, places that hold what they held
#include <math.h>
#include <stdarg.h>
#include <stdio.h>
#include <string.h>

#include "sandline.h"

// What a buffer holds before a call, as in the oracle's text form; and a count that no call gives.
#define OLD (-99999)
#define OLD_BYTE 0xee
#define OLD_COUNT 77

static uint64_t count, distances;
static int32_t out[20], scratch[12], place[2];
static uint8_t marks[8], flags[12], text[64];
static double reals[20];
static bool finished;

// ---- what a call said, as text

static char said[2048];
static int calls, wrong;

static void put(const char *format, ...) {
    size_t used = strlen(said);
    va_list words;
    va_start(words, format);
    vsnprintf(said + used, sizeof said - used, format, words);
    va_end(words);
}

static void put_values(const int32_t *list, size_t length) {
    for (size_t k = 0; k < length; k++) put("%s%d", k ? "," : " ", (int)list[k]);
}

static void put_bytes(const uint8_t *list, size_t length) {
    for (size_t k = 0; k < length; k++) put("%s%d", k ? "," : " ", list[k]);
}

static void put_reals(const double *list, size_t length) {
    for (size_t k = 0; k < length; k++) {
        if (list[k] != list[k]) put("%snan", k ? "," : " ");
        else put("%s%.17g", k ? "," : " ", list[k]);
    }
}

// Before a call: every buffer holds what it holds before, and nothing is said.
static void fill(void) {
    for (size_t k = 0; k < sizeof out / sizeof *out; k++) out[k] = OLD;
    for (size_t k = 0; k < sizeof scratch / sizeof *scratch; k++) scratch[k] = OLD;
    for (size_t k = 0; k < sizeof place / sizeof *place; k++) place[k] = OLD;
    for (size_t k = 0; k < sizeof reals / sizeof *reals; k++) reals[k] = OLD;
    memset(marks, OLD_BYTE, sizeof marks);
    memset(flags, OLD_BYTE, sizeof flags);
    memset(text, '.', sizeof text);
    finished = false;
    count = OLD_COUNT;
    distances = OLD_COUNT;
    said[0] = 0;
}

// After it: what is expected, and from where.
static void expect(const char *call, const char *source, const char *expected) {
    calls++;
    printf("%s [%s]: %s\n", call, source, said);
    if (strcmp(said, expected) != 0) {
        wrong++;
        printf("    differs: expected %s\n", expected);
    }
    fill();
}

// Number and count of a call.
static void put_answer(uint8_t number) {
    put("%d %llu", number, (unsigned long long)count);
}

// The same of a call whose work is counted, and its distances.
static void put_work(uint8_t number) {
    put_answer(number);
    put(" %llu", (unsigned long long)distances);
}

// ---- the lists

// A chart of one set pixel, of two in a row, of (0,0) and (1,1), and of none.
static const uint8_t one[] = {0x80}, two[] = {0xc0}, diagonal[] = {0x80, 0x40}, blank[] = {0x00, 0x00};
// 10 by 2: the first row and all padding set, and of the second row the last pixel.
static const uint8_t wide[] = {0xff, 0xff, 0x00, 0x7f};

static const int32_t pixel[] = {0, 0, 1, 0, 1, 1, 0, 1, 0, 0};
static const int32_t square[] = {0, 0, 4, 0, 4, 4, 0, 4, 0, 0};
static const int32_t zigzag[] = {0, 0, 8, 2, 0, 4, 8, 0};
static const int32_t line[] = {0, 0, 3, 4, 6, 8};
static const int32_t far_off[] = {0, 0, 16384, 0};
static int32_t long_list[2 * 4097];

static void charts(void) {
    put("%d %d %d", sandline_pixel(10, 2, wide, 4, 9, 1), sandline_pixel(10, 2, wide, 4, 8, 1),
        sandline_pixel(10, 2, wide, 4, 0, 0));
    expect("sandline_pixel", "01", "1 0 1"); // the leftmost is the highest bit
    put("%d %d %d", sandline_pixel(10, 2, wide, 4, 10, 0), sandline_pixel(10, 2, wide, 4, -1, 0),
        sandline_pixel(10, 2, wide, 4, 0, 2));
    expect("sandline_pixel", "01", "0 0 0"); // outside of the chart; (10,0) lies in the padding, whose bits are set
    put("%d", sandline_pixel(1, 1, NULL, 0, 0, 0));
    expect("sandline_pixel", "oracle", "0"); // pixel 1 1 - 0 0

    put_answer(sandline_area(10, 2, wide, 4, &count));
    expect("sandline_area", "01", "0 11"); // 10 and 1: padding does not count
    put_answer(sandline_area(512, 513, wide, 4, &count));
    expect("sandline_area", "refusal", "1 0");
    put_answer(sandline_area(10, 2, wide, 3, &count));
    expect("sandline_area", "refusal", "1 0");
    put_answer(sandline_area(1, 1, NULL, 0, &count));
    expect("sandline_area", "refusal", "1 0"); // a null pointer is no error of its own

    put("%d", sandline_first_start(10, 2, wide, 4, place));
    put_values(place, 2);
    expect("sandline_first_start", "01", "0 0,0");
    put("%d", sandline_first_start(2, 2, diagonal + 1, 1, place));
    put_values(place, 2);
    expect("sandline_first_start", "refusal", "1 -99999,-99999");
    put("%d", sandline_first_start(2, 2, blank, 2, place));
    put_values(place, 2);
    expect("sandline_first_start", "01", "8 -99999,-99999");
    put("%d", sandline_first_start(10, 1, wide + 2, 2, place));
    put_values(place, 2);
    expect("sandline_first_start", "01", "0 9,0"); // not 8, whose bit is the highest of the byte
}

static void walks(void) {
    put_answer(sandline_walk(1, 1, one, 1, 0, 0, true, out, 10, &count));
    put_values(out, 12);
    expect("sandline_walk", "01, P1", "0 5 0,0,1,0,1,1,0,1,0,0,-99999,-99999");
    put_answer(sandline_walk(1, 1, one, 1, 0, 0, false, out, 20, &count));
    put_values(out, 12);
    expect("sandline_walk", "oracle", "0 5 0,0,0,1,1,1,1,0,0,0,-99999,-99999"); // walk 0 1 1 80 0 0 12
    put_answer(sandline_walk(1, 1, one, 1, 5, 5, true, out, 10, &count));
    put_values(out, 2);
    expect("sandline_walk", "01, P2", "8 0 -99999,-99999");
    put_answer(sandline_walk(2, 1, two, 1, 1, 0, true, out, 20, &count));
    put_values(out, 2);
    expect("sandline_walk", "01", "9 0 -99999,-99999"); // a run is not stopped at the start
    put_answer(sandline_walk(2, 2, diagonal, 2, 0, 0, true, out, 16, &count));
    put_values(out, 18);
    expect("sandline_walk", "01", "0 8 0,0,1,0,1,1,2,1,2,2,1,2,1,0,0,0,-99999,-99999");
    put_answer(sandline_walk(1, 1, one, 1, 0, 0, true, out, 9, &count));
    put_values(out, 10);
    expect("sandline_walk", "refusal",
           "10 0 -99999,-99999,-99999,-99999,-99999,-99999,-99999,-99999,-99999,-99999");
    put_answer(sandline_walk(1, 1, one, 1, 16384, 0, true, out, 0, &count));
    expect("sandline_walk", "refusal", "3 0"); // before 8 and 10, which apply too
    put_answer(sandline_walk(0, 1, one, 1, 16384, 0, true, NULL, 0, &count));
    expect("sandline_walk", "refusal", "1 0");
    put_answer(sandline_walk(1, 1, one, 1, 0, 0, true, NULL, 0, &count));
    expect("sandline_walk", "here", "10 0");
}

static void put_spiral(const sandline_spiral_walker *s) {
    put(" %d %d %d %d %d %d %d %llu %llu", (int)s->x, (int)s->y, (int)s->dir, (int)s->gx, (int)s->gy, (int)s->sq,
        (int)s->cc, (unsigned long long)s->area, (unsigned long long)s->step);
}

static void spirals(void) {
    sandline_spiral_walker s;
    memset(&s, 0, sizeof s);

    put("%d", sandline_spiral(513, &s));
    put_spiral(&s);
    expect("sandline_spiral", "refusal", "1 0 0 0 0 0 0 0 0 0");
    put("%d", sandline_spiral(2, &s));
    put_spiral(&s);
    expect("sandline_spiral", "oracle", "0 0 0 0 1 0 1 0 4 0"); // spiral 2

    for (int k = 0; k < 4; k++) {
        static const char *const places[] = {"0 1 0,0", "0 1 1,0", "0 1 1,1", "0 1 0,1"};
        put_answer(sandline_spiral_advance(&s, place, &count));
        put_values(place, 2);
        expect("sandline_spiral_advance", "01, P12", places[k]);
    }
    put_answer(sandline_spiral_advance(&s, place, &count));
    put_values(place, 2);
    expect("sandline_spiral_advance", "01, P12", "0 0 -99999,-99999"); // the end

    s.dir = 4;
    s.area = 262144;
    s.step = 7;
    {
        const sandline_spiral_walker old = s;
        put_answer(sandline_spiral_advance(&s, place, &count));
        put_values(place, 2);
        put(" %d", s.x == old.x && s.y == old.y && s.dir == old.dir && s.gx == old.gx && s.gy == old.gy
                       && s.sq == old.sq && s.cc == old.cc && s.area == old.area && s.step == old.step);
    }
    expect("sandline_spiral_advance", "refusal", "1 0 -99999,-99999 1"); // it leaves the state as it came
}

// Reads a picture of so many bytes into so much room, and puts what comes of it.
static void read_picture(const char *file, size_t length, size_t room) {
    uint64_t width = OLD_COUNT, height = OLD_COUNT;
    put_answer(sandline_read_pbm((const uint8_t *)file, length, room ? flags : NULL, room, &width, &height, &count));
    put(" %llu,%llu", (unsigned long long)width, (unsigned long long)height);
    put_bytes(flags, 3);
}

#define READ(file, room) read_picture(file, sizeof file - 1, room)

static void pictures(void) {
    READ("P4 1 1\n\xff", 1);
    expect("sandline_read_pbm", "02, 1/13", "0 8 1,1 128,238,238"); // padding is cleared
    READ("P1#sand\n2 2\n01 10", 3);
    expect("sandline_read_pbm", "02, 1/13", "0 17 2,2 64,128,238"); // a row a byte, the leftmost pixel the highest bit
    READ("P1 2 2\n01102", 2);
    expect("sandline_read_pbm", "02, 1/13", "0 11 2,2 64,128,238"); // what stands behind the image is not looked at
    READ("P4 9 1\n\xff\xffP4", 2);
    expect("sandline_read_pbm", "02, 1/13", "0 9 9,1 255,128,238");
    READ("P5 1 1\n\xff", 1);
    expect("sandline_read_pbm", "02, 1/13", "12 0 77,77 238,238,238");
    READ("P4 9 1\n\xff", 2);
    expect("sandline_read_pbm", "02, 1/13", "12 0 77,77 238,238,238"); // the second byte of the row is missing
    READ("P1 2 1\n12", 0);
    expect("sandline_read_pbm", "02, 1/13", "12 0 77,77 238,238,238"); // before 10
    READ("P4 513 1", 0);
    expect("sandline_read_pbm", "02, 1/13", "1 0 77,77 238,238,238"); // before what is missing behind the sizes
    READ("P4 9 1\n\xff\xff", 1);
    expect("sandline_read_pbm", "02, 1/13", "10 0 77,77 238,238,238");
    read_picture(NULL, 0, 0);
    expect("sandline_read_pbm", "here", "12 0 77,77 238,238,238");

    put_answer(sandline_write_pbm(10, 2, wide, 4, text, 13, &count));
    put_bytes(text, 14);
    expect("sandline_write_pbm", "02, 1/13", "0 12 80,52,10,49,48,32,50,10,255,192,0,64,46,46"); // P4, newline, 10 2
    put_answer(sandline_write_pbm(10, 2, wide, 4, text, 11, &count));
    put_bytes(text, 1);
    expect("sandline_write_pbm", "02, 1/13", "10 0 46");
    put_answer(sandline_write_pbm(10, 2, wide, 3, text, 11, &count));
    put_bytes(text, 1);
    expect("sandline_write_pbm", "refusal", "1 0 46"); // before 10
    put_answer(sandline_write_pbm(1, 1, one, 1, NULL, 0, &count));
    expect("sandline_write_pbm", "here", "10 0");
}

static void geometry(void) {
    const int32_t corner[] = {0, 0, 4, 0, 4, 4}, off[] = {0, 0, 4, 0, 4, -16384};
    const double crossing[][4] = {{0, 0, 2, 2}, {0, 2, 2, 0}}, level[][4] = {{0, 0, 2, 0}, {0, 1, 2, 1}};
    const double same[][4] = {{0, 0, 4, 0}, {1, 0, 3, 0}}, endless[] = {0, 0, 0, INFINITY};
    int32_t area = OLD;

    put("%d", sandline_signed_area(corner, &area));
    put_values(&area, 1);
    expect("sandline_signed_area", "oracle", "0 16"); // signed_area 0 0 4 0 4 4
    area = OLD;
    put("%d", sandline_signed_area(off, &area));
    put_values(&area, 1);
    expect("sandline_signed_area", "refusal", "3 -99999");

    {
        const double ends[] = {0, 0, 3, -4};
        put("%d", sandline_find_mid_point(ends, reals));
        put_reals(reals, 3);
        // oracle: mid_point 0000000000000000 0000000000000000 4008000000000000 c010000000000000
        expect("sandline_find_mid_point", "oracle", "0 1.5,-2,-99999");
        put("%d", sandline_find_mid_point(endless, reals));
        put_reals(reals, 2);
        expect("sandline_find_mid_point", "refusal", "3 -99999,-99999");
    }

    put("%d", sandline_norm(3, -4, reals));
    put_reals(reals, 2);
    expect("sandline_norm", "oracle", "0 5,-99999"); // norm 4008000000000000 c010000000000000
    put("%d", sandline_norm(3, NAN, reals));
    put_reals(reals, 1);
    expect("sandline_norm", "refusal", "3 -99999");
    put("%d", sandline_norm_i32(3, -4, reals));
    put_reals(reals, 2);
    expect("sandline_norm_i32", "oracle", "0 5,-99999"); // norm_i32 3 -4
    put("%d", sandline_norm_i32(INT32_MIN, 0, reals));
    put_reals(reals, 1);
    expect("sandline_norm_i32", "refusal", "3 -99999");

    put_answer(sandline_find_intersection(crossing[0], crossing[1], reals, &count));
    put_reals(reals, 5);
    expect("sandline_find_intersection", "01", "0 4 1,1,0.5,0.5,-99999");
    put_answer(sandline_find_intersection(level[0], level[1], reals, &count));
    put_reals(reals, 1);
    // oracle: intersection of these, 0 parallel
    expect("sandline_find_intersection", "oracle", "0 0 -99999");
    put_answer(sandline_find_intersection(same[0], same[1], reals, &count));
    put_reals(reals, 3);
    expect("sandline_find_intersection", "01", "0 2 2,0,-99999"); // the midpoint of the first line
    put_answer(sandline_find_intersection(same[0], endless, reals, &count));
    put_reals(reals, 1);
    expect("sandline_find_intersection", "refusal", "3 0 -99999");

    {
        const double within[] = {1, 1, 0.5, 0.5}, half[] = {1, 1, NAN, 0.5}, away[] = {1, 1, NAN, 5};
        const double neither[] = {1, 1, NAN, NAN};
        const double *cases[] = {within, half, away, neither, within, NULL};
        const uint64_t counts[] = {4, 4, 4, 4, 2, 0}; // the last two: Coincide and Parallel
        for (int k = 0; k < 6; k++) put("%d", sandline_outside(cases[k], counts[k]));
        expect("sandline_outside", "01", "001000");
        for (int k = 0; k < 6; k++) put("%d", sandline_inside(cases[k], counts[k]));
        expect("sandline_inside", "01", "110110"); // a NaN alone never makes it outside
        for (int k = 0; k < 6; k++) put("%d", sandline_coincide(cases[k], counts[k]));
        expect("sandline_coincide", "01", "000110");
    }
}

static void simplification(void) {
    put_answer(sandline_remove_staircase(pixel, 10, false, out, 10, &count));
    put_values(out, 6);
    expect("sandline_remove_staircase", "01, P3", "0 2 0,0,0,0,-99999,-99999");
    put_answer(sandline_remove_staircase(pixel, 9, false, out, 10, &count));
    put_values(out, 2);
    expect("sandline_remove_staircase", "refusal", "3 0 -99999,-99999");
    put_answer(sandline_remove_staircase(pixel, 10, false, out, 9, &count));
    put_values(out, 2);
    expect("sandline_remove_staircase", "refusal", "10 0 -99999,-99999"); // judged on five points, not on the two
    put_answer(sandline_remove_staircase(NULL, 0, true, NULL, 0, &count));
    expect("sandline_remove_staircase", "here", "0 0");

    put_answer(sandline_limit_penalties(long_list + 8192, 2, out, 4, &count));
    put_values(out, 6);
    expect("sandline_limit_penalties", "01, P4", "0 2 7,7,7,7,-99999,-99999");
    put_answer(sandline_limit_penalties(long_list + 8192, 2, out, 3, &count));
    put_values(out, 4);
    expect("sandline_limit_penalties", "refusal", "10 0 -99999,-99999,-99999,-99999");
    put_answer(sandline_limit_penalties(line, 4, out, 4, &count));
    put_values(out, 4);
    expect("sandline_limit_penalties", "01, P5", "0 1 0,0,-99999,-99999"); // not the last of two
    {
        const int32_t there_and_back[] = {0, 0, 100, 0, 0, 0};
        put_answer(sandline_limit_penalties(there_and_back, 6, out, 6, &count));
        put_values(out, 6);
        expect("sandline_limit_penalties", "01, P6", "0 2 0,0,0,0,-99999,-99999"); // a NaN does not win
    }
    put_answer(sandline_limit_penalties(far_off, 4, out, 4, &count));
    put_values(out, 2);
    expect("sandline_limit_penalties", "refusal", "3 0 -99999,-99999");

    put_answer(sandline_simplify(pixel, 10, true, out, 10, &count));
    put_values(out, 6);
    expect("sandline_simplify", "01, P3", "0 2 0,0,0,0,-99999,-99999");
    put_answer(sandline_simplify(square, 10, true, out, 10, &count));
    put_values(out, 12);
    expect("sandline_simplify", "01", "0 5 0,0,4,0,4,4,0,4,0,0,-99999,-99999");
    put_answer(sandline_simplify(long_list, 8194, true, out, 20, &count));
    put_values(out, 2);
    expect("sandline_simplify", "refusal", "2 0 -99999,-99999"); // 4,097 points
}

static void corners(void) {
    const int32_t straight[] = {0, 0, 4, 0, 8, 0}, twice[] = {0, 0, 4, 0, 4, 0, 8, 0}, equal[] = {7, 7, 7, 7, 7, 7};

    put_answer(sandline_find_corners(square, 10, 0, 1, true, flags, 4, &count));
    put_bytes(flags, 5);
    expect("sandline_find_corners", "01", "0 4 1,1,1,1,238"); // (0,1) stands for 90 degrees; the last is dropped
    put_answer(sandline_find_corners(straight, 6, 0, 1, false, flags, 3, &count));
    put_bytes(flags, 4);
    expect("sandline_find_corners", "01", "0 3 1,0,1,238"); // open lists flag both ends
    put_answer(sandline_find_corners(twice, 8, 0, 1, false, flags, 4, &count));
    put_bytes(flags, 5);
    expect("sandline_find_corners", "02", "0 4 1,0,0,1,238"); // 2/13: a peg entered twice
    put_answer(sandline_find_corners(equal, 6, 0, 1, true, flags, 2, &count));
    put_bytes(flags, 3);
    expect("sandline_find_corners", "02", "0 2 0,0,238"); // a closed list of equal points has no corners
    put_answer(sandline_find_corners(square, 10, 0, 0, true, flags, 4, &count));
    put_bytes(flags, 1);
    expect("sandline_find_corners", "refusal", "7 0 238");
    put_answer(sandline_find_corners(square, 10, 0, 1, false, flags, 4, &count));
    put_bytes(flags, 1);
    expect("sandline_find_corners", "refusal", "10 0 238"); // an open list needs five
    put_answer(sandline_find_corners(NULL, 0, 0, 1, true, NULL, 0, &count));
    expect("sandline_find_corners", "refusal", "4 0");
}

static void smoothing(void) {
    const double square_f64[] = {0, 0, 4, 0, 4, 4, 0, 4, 0, 0};
    const uint8_t none[] = {0, 0, 0, 0}, first[] = {1, 0, 0, 0}, all[] = {1, 1, 1, 1}, odd[] = {0, 2, 0, 0};

    put_answer(sandline_subdivide_keep_corners(square_f64, 10, none, 4, 8, 1, true, reals, 18, flags, 9, &count,
                                               &finished));
    put(" %d", finished);
    put_reals(reals, 19);
    put_bytes(flags, 9);
    // oracle: subdivide 4020000000000000 3ff0000000000000 1, the square, 0,0,0,0 as bytes, 18 9
    expect("sandline_subdivide_keep_corners", "01 and oracle",
           "0 9 0 0,0,2,-0.5,4,0,4.5,2,4,4,2,4.5,0,4,-0.5,2,0,0,-99999 0,0,0,0,0,0,0,0,238");
    put_answer(sandline_subdivide_keep_corners(square_f64, 10, first, 4, 8, 1, true, reals, 18, flags, 9, &count,
                                               &finished));
    put(" %d", finished);
    put_reals(reals, 4);
    put_bytes(flags, 9);
    // oracle: the same with 1,0,0,0
    expect("sandline_subdivide_keep_corners", "01 and oracle", "0 9 0 0,0,2,-0.25 1,0,0,0,0,0,0,0,238");
    put_answer(sandline_subdivide_keep_corners(square_f64, 10, all, 4, 8, 1, true, reals, 18, flags, 9, &count,
                                               &finished));
    put(" %d", finished);
    put_reals(reals, 11);
    put_bytes(flags, 5);
    expect("sandline_subdivide_keep_corners", "01", "0 5 1 0,0,4,0,4,4,0,4,0,0,-99999 1,1,1,1,238");
    finished = true;
    put_answer(sandline_subdivide_keep_corners(square_f64, 10, odd, 4, 8, 1, true, reals, 18, flags, 9, &count,
                                               &finished));
    put(" %d", finished);
    put_reals(reals, 1);
    put_bytes(flags, 1);
    expect("sandline_subdivide_keep_corners", "refusal", "6 0 1 -99999 238");
    put_answer(sandline_subdivide_keep_corners(square_f64, 10, none, 4, 0.5, 1, true, reals, 17, flags, 9, &count,
                                               &finished));
    expect("sandline_subdivide_keep_corners", "refusal", "7 0"); // before 10
    put_answer(sandline_subdivide_keep_corners(square_f64, 10, none, 4, 8, 1, true, reals, 18, flags, 8, &count,
                                               &finished));
    put(" %d", finished);
    put_reals(reals, 1);
    put_bytes(flags, 1);
    expect("sandline_subdivide_keep_corners", "refusal", "10 0 0 -99999 238");
    put_answer(sandline_subdivide_keep_corners(NULL, 0, NULL, 0, 8, 1, false, NULL, 0, NULL, 0, &count, &finished));
    put(" %d", finished);
    // oracle: subdivide 4020000000000000 3ff0000000000000 0 - - 0 0
    expect("sandline_subdivide_keep_corners", "oracle", "0 0 1");
}

static void zooms(void) {
    put_answer(sandline_simplify_radial_dist(line, 6, 25, out, 6, &count));
    put_values(out, 6);
    expect("sandline_simplify_radial_dist", "01, P7", "0 2 0,0,6,8,-99999,-99999");
    put_answer(sandline_simplify_radial_dist(line, 6, 24, out, 6, &count));
    put_values(out, 8);
    expect("sandline_simplify_radial_dist", "01, P8", "0 3 0,0,3,4,6,8,-99999,-99999");
    put_answer(sandline_simplify_radial_dist(line, 6, -1, out, 5, &count));
    put_values(out, 2);
    expect("sandline_simplify_radial_dist", "refusal", "5 0 -99999,-99999"); // before 10
    put_answer(sandline_simplify_radial_dist(line, 6, -0.0, out, 6, &count));
    put_values(out, 8);
    expect("sandline_simplify_radial_dist", "01", "0 3 0,0,3,4,6,8,-99999,-99999"); // -0 counts as 0

    put_answer(sandline_simplify_douglas_peucker(zigzag, 8, 16, out, 8, marks, 4, &count));
    put_values(out, 6);
    put_bytes(marks, 5);
    expect("sandline_simplify_douglas_peucker", "01, P10", "0 2 0,0,8,0,-99999,-99999 1,0,0,1,238");
    put_answer(sandline_simplify_douglas_peucker(zigzag, 8, 15, out, 8, marks, 4, &count));
    put_values(out, 10);
    put_bytes(marks, 5);
    expect("sandline_simplify_douglas_peucker", "01, P10", "0 4 0,0,8,2,0,4,8,0,-99999,-99999 1,1,1,1,238");
    put_answer(sandline_simplify_douglas_peucker(line + 2, 2, 16, out, 4, marks, 1, &count));
    put_values(out, 6);
    put_bytes(marks, 2);
    expect("sandline_simplify_douglas_peucker", "01, P11", "0 2 3,4,3,4,-99999,-99999 1,238"); // one point, twice
    put_answer(sandline_simplify_douglas_peucker(NULL, 0, NAN, NULL, 0, NULL, 0, &count));
    expect("sandline_simplify_douglas_peucker", "refusal", "4 0"); // before 5
    put_answer(sandline_simplify_douglas_peucker(zigzag, 8, 4294967296.0, out, 8, marks, 3, &count));
    put_values(out, 2);
    put_bytes(marks, 4);
    expect("sandline_simplify_douglas_peucker", "refusal", "10 0 -99999,-99999 238,238,238,238");
    put_answer(sandline_simplify_douglas_peucker(zigzag, 8, 4294967297.0, out, 8, marks, 4, &count));
    expect("sandline_simplify_douglas_peucker", "refusal", "5 0");

    put_work(sandline_simplify_douglas_peucker_counted(zigzag, 8, 16, out, 8, marks, 4, &count, &distances));
    put_values(out, 6);
    put_bytes(marks, 5);
    // the whole list alone, with two points inside
    expect("sandline_simplify_douglas_peucker_counted", "02, 8/13", "0 2 2 0,0,8,0,-99999,-99999 1,0,0,1,238");
    put_work(sandline_simplify_douglas_peucker_counted(zigzag, 8, 15, out, 8, marks, 4, &count, &distances));
    put_values(out, 10);
    put_bytes(marks, 5);
    // and the part from (0,0) to (0,4), with one: 3, the most that four points have
    expect("sandline_simplify_douglas_peucker_counted", "02, 8/13",
           "0 4 3 0,0,8,2,0,4,8,0,-99999,-99999 1,1,1,1,238");
    put_work(sandline_simplify_douglas_peucker_counted(line + 2, 2, 16, out, 4, marks, 1, &count, &distances));
    put_values(out, 6);
    put_bytes(marks, 2);
    expect("sandline_simplify_douglas_peucker_counted", "02, 8/13", "0 2 0 3,4,3,4,-99999,-99999 1,238");
    put_work(sandline_simplify_douglas_peucker_counted(NULL, 0, NAN, NULL, 0, NULL, 0, &count, &distances));
    expect("sandline_simplify_douglas_peucker_counted", "refusal", "4 0 0"); // before 5
    put_work(sandline_simplify_douglas_peucker_counted(zigzag, 8, 4294967297.0, out, 8, marks, 3, &count, &distances));
    expect("sandline_simplify_douglas_peucker_counted", "refusal", "5 0 0"); // before 10
    put_work(sandline_simplify_douglas_peucker_counted(zigzag, 8, 16, out, 8, marks, 3, &count, &distances));
    put_values(out, 2);
    put_bytes(marks, 4);
    expect("sandline_simplify_douglas_peucker_counted", "refusal", "10 0 0 -99999,-99999 238,238,238,238");

    put_answer(sandline_reduce(pixel, 10, 3, out, 10, scratch, 10, marks, 5, &count));
    put_values(out, 6);
    put_values(scratch, 4);
    put_bytes(marks, 3);
    // oracle: reduce 4008000000000000 0,0,1,0,1,1,0,1,0,0 10 10 5
    expect("sandline_reduce", "01, P11, and oracle", "0 2 0,0,0,0,-99999,-99999 0,0,-99999,-99999 1,238,238");
    put_answer(sandline_reduce(pixel, 10, 0, out, 10, scratch, 10, marks, 5, &count));
    put_values(out, 12);
    put_values(scratch, 2);
    put_bytes(marks, 2);
    expect("sandline_reduce", "01", "0 5 0,0,1,0,1,1,0,1,0,0,-99999,-99999 -99999,-99999 238,238"); // answered whole
    put_answer(sandline_reduce(pixel, 10, 65537, out, 10, scratch, 10, marks, 5, &count));
    put_values(out, 2);
    put_values(scratch, 2);
    put_bytes(marks, 2);
    expect("sandline_reduce", "refusal", "5 0 -99999,-99999 -99999,-99999 238,238");
    put_answer(sandline_reduce(pixel, 10, 65536, out, 10, scratch, 9, marks, 5, &count));
    put_values(out, 2);
    put_values(scratch, 2);
    put_bytes(marks, 2);
    expect("sandline_reduce", "refusal", "10 0 -99999,-99999 -99999,-99999 238,238");
    put_answer(sandline_reduce(pixel, 10, 65536, out, 10, scratch, 10, marks, 4, &count));
    put_values(out, 2);
    put_values(scratch, 2);
    put_bytes(marks, 2);
    expect("sandline_reduce", "refusal", "10 0 -99999,-99999 -99999,-99999 238,238");

    {
        const int32_t straight[] = {0, 0, 3, 4, 6, 8, 9, 12};
        double numbers[4];
        put_answer(sandline_numbers(zigzag, 8, reals, 4, &count));
        put_reals(reals, 5);
        memcpy(numbers, reals, sizeof numbers);
        expect("sandline_numbers", "01, P9", "0 4 inf,16,16,inf,-99999"); // not 64 for (8,2), its own distance
        put_answer(sandline_numbers(zigzag, 8, reals, 3, &count));
        put_reals(reals, 1);
        expect("sandline_numbers", "refusal", "10 0 -99999");
        put_answer(sandline_numbers(zigzag, 0, reals, 4, &count));
        put_reals(reals, 1);
        expect("sandline_numbers", "refusal", "4 0 -99999");

        put_work(sandline_numbers_counted(zigzag, 8, reals, 4, &count, &distances));
        put_reals(reals, 5);
        expect("sandline_numbers_counted", "02, 8/13", "0 4 3 inf,16,16,inf,-99999"); // as at tolerance 0
        put_work(sandline_numbers_counted(straight, 8, reals, 4, &count, &distances));
        put_reals(reals, 5);
        expect("sandline_numbers_counted", "02, 8/13", "0 4 2 inf,0,0,inf,-99999"); // no split at tolerance 0
        put_work(sandline_numbers_counted(line, 2, reals, 2, &count, &distances));
        put_reals(reals, 2);
        expect("sandline_numbers_counted", "02, 8/13", "0 1 0 inf,-99999"); // a single point
        put_work(sandline_numbers_counted(zigzag, 8, reals, 3, &count, &distances));
        put_reals(reals, 1);
        expect("sandline_numbers_counted", "refusal", "10 0 0 -99999");
        put_work(sandline_numbers_counted(far_off, 4, NULL, 0, &count, &distances));
        expect("sandline_numbers_counted", "refusal", "3 0 0"); // before 10

        put_answer(sandline_zoom(zigzag, 8, numbers, 4, 16, out, 8, &count));
        put_values(out, 6);
        expect("sandline_zoom", "01, P10", "0 2 0,0,8,0,-99999,-99999");
        put_answer(sandline_zoom(zigzag, 8, numbers, 4, 15, out, 8, &count));
        put_values(out, 10);
        expect("sandline_zoom", "01, P10", "0 4 0,0,8,2,0,4,8,0,-99999,-99999");
        put_answer(sandline_zoom(zigzag, 8, numbers, 3, 15, out, 8, &count));
        put_values(out, 2);
        expect("sandline_zoom", "oracle", "3 0 -99999,-99999"); // zoom, with three numbers for four points
        put_answer(sandline_zoom(zigzag, 8, numbers, 4, INFINITY, out, 8, &count));
        put_values(out, 2);
        expect("sandline_zoom", "refusal", "5 0 -99999,-99999");
    }
}

static void square_roots(void) {
    double bits_of_root = sandline_sqrt(2);
    uint64_t bits;

    memcpy(&bits, &bits_of_root, sizeof bits);
    put("%016llx", (unsigned long long)bits);
    expect("sandline_sqrt", "01", "3ff6a09e667f3bcd");
    {
        const double roots[] = {sandline_sqrt(-0.0), sandline_sqrt(INFINITY), sandline_sqrt(-1), sandline_sqrt(NAN)};
        put_reals(roots, 4);
    }
    expect("sandline_sqrt", "01", " -0,inf,nan,nan");
    put("%016llx", (unsigned long long)sandline_sqrt_bits(0x4000000000000000));
    expect("sandline_sqrt_bits", "01", "3ff6a09e667f3bcd");
    put("%016llx", (unsigned long long)sandline_sqrt_bits(0xbff0000000000000));
    expect("sandline_sqrt_bits", "01", "7ff8000000000000"); // of -1
}

static void frame(const char *words, size_t room, size_t at) {
    uint64_t next = sandline_answer((const uint8_t *)words, strlen(words), text, room, at);
    put("%llu %.*s", (unsigned long long)next, (int)sizeof text, (const char *)text);
}

static void frames(void) {
    frame("0101000100010000000080", 64, 0);
    expect("sandline_answer", "01", "48 810000050000000000010000000100010000000100000000................");
    frame("01010001000100050005", 64, 4);
    // no frame: its pixels are missing
    expect("sandline_answer", "01", "12 ....ff0b0000....................................................");
    frame("0101000100010005000580", 12, 4);
    expect("sandline_answer", "01, P2", "12 ....81080000....................................................");
    frame("0101000100010005000580", 11, 4);
    // one place short, and from behind the end
    expect("sandline_answer", "here", "4 ................................................................");
    frame("", 64, 65);
    expect("sandline_answer", "here", "65 ................................................................");
    put("%llu", (unsigned long long)sandline_answer(NULL, 0, NULL, 0, 0));
    expect("sandline_answer", "here", "0");
}

// The example on top of sandline.h, of one set pixel.
static void example(void) {
    uint64_t width = 1, height = 1, bytes = 1, n;
    const uint8_t *pixels = one;
    static int32_t walked[8192], kept[8192];
    int32_t start[2];
    if (sandline_first_start(width, height, pixels, bytes, start) == SANDLINE_DONE &&
        sandline_walk(width, height, pixels, bytes, start[0], start[1], true, walked, 8192, &n) == SANDLINE_DONE &&
        sandline_simplify(walked, 2 * n, true, kept, 8192, &n) == SANDLINE_DONE)
        put_values(kept, (size_t)(2 * n));
    expect("the header's example", "01, P1 and P3", " 0,0,0,0");
}

// The example of sandline_read_pbm, of a picture of one set pixel.
static void picture_example(void) {
    const uint8_t *file = (const uint8_t *)"P1 2 1 01";
    uint64_t length = 9;
    static uint8_t pixels[32768];
    uint64_t width, height, n;
    int32_t start[2];
    if (sandline_read_pbm(file, length, pixels, sizeof pixels, &width, &height, &n) == SANDLINE_DONE &&
        sandline_first_start(width, height, pixels, sizeof pixels, start) == SANDLINE_DONE)
        put_values(start, 2);
    expect("the example of sandline_read_pbm", "02, 1/13", " 1,0");
}

int main(void) {
    long_list[8192] = long_list[8193] = 7;
    fill();
    charts();
    walks();
    spirals();
    pictures();
    geometry();
    simplification();
    corners();
    smoothing();
    zooms();
    square_roots();
    frames();
    example();
    picture_example();
    printf("%d lines, %d not as expected\n", calls, wrong);
    return wrong ? 1 : 0;
}
