// Sandline for C and C++: outlines of bitmaps, simplified so that zooms nest.
//
// tools/archive FOLDER makes FOLDER/libsandline_c.a for the processor at hand, and tools/archive FOLDER thumbv7em,
// thumbv6m or wasm32 for a Cortex-M4, a Cortex-M0+ or WebAssembly. Of the C library it calls memset alone, and nothing
// in WebAssembly; on a Cortex-M also libgcc's routines for doubles and 64 bits (tools/archive says which, and what else
// a program owes on each). It allocates nothing, keeps nothing between calls, reads and writes no file, and sets no
// errno. So calls may run at the same time on several threads, as long as what one of them writes is lent to no other.
//
// Every call comes back, for every input that keeps to "What you owe" below. What is right is said by
// docs/01-scope.md ("document 01"), and it is proved that the code under these calls does it.
//
// The outline of a chart, in 4,096 points at most:
//
//     static int32_t walked[8192], kept[8192];
//     int32_t start[2];
//     uint64_t n;
//     if (sandline_first_start(width, height, pixels, bytes, start) == SANDLINE_DONE &&
//         sandline_walk(width, height, pixels, bytes, start[0], start[1], true, walked, 8192, &n) == SANDLINE_DONE &&
//         sandline_simplify(walked, 2 * n, true, kept, 8192, &n) == SANDLINE_DONE)
//         draw(kept, n); // kept[0], kept[1] is the first point, kept[2 * n - 2], kept[2 * n - 1] the last
//
// It is one outline: a hole, and a bank that does not touch this one, is not walked from the same start. Where the walk
// answers 9, pixels touch only diagonally somewhere: "Walks" below says what to do.
//
// WHAT IT IS ALL MADE OF
//
// Units are pixels, x to the right and y down. A pixel's top left corner has its column and row as x and y.
//
// A chart is a bitmap, 1 to 512 pixels wide and high: rows from the top, each padded to whole bytes, one bit
// a pixel, the leftmost the highest. That is (width + 7) / 8 * height bytes; padding is never looked at.
//
// A list of points is an array x, y, x, y, .. of int32_t or of double, up to 4,096 points, each coordinate
// -16,383 to 16,383. Its LENGTH IS GIVEN IN ELEMENTS, that is in values: 2n for n points. So is room. A COUNT
// that is answered IS IN POINTS (or in what the call says), so count points fill 2 * count elements.
//
// A closed list ends with the point that it begins with. Flags are bytes, 1 or 0.
//
// Sizes, lengths, rooms and counts are uint64_t on every processor, also where a size_t has 32 bits: a count is lent as
// the address of a uint64_t.
//
// WHAT EVERY CALL HAS IN COMMON
//
// A call that can refuse returns 0 (SANDLINE_DONE), or the least number below that applies; a picture that cannot be
// read is told before no room, 12 before 10.
//
// Refused: the count, if the call has one, is set to 0 (a count of distances too), and everything else that was lent
// holds what it held, scratch too.
//
// Done: the answer stands at the start of its buffer, and places behind it hold what they held.
//
// Room that is asked for hangs on the input's length alone, so that a caller who lends it is never refused
// for it: n points ask for n places, a single one for 2, and a place for a point is 2 elements. More room is
// never harmful. Only a walk asks for as many places as its outline has points, and a chart that is read for what its
// picture says.
//
// WHAT YOU OWE
//
// - A pointer with a length points to so many elements at least, or is null if the length is 0. Null with
//   any other length is not allowed.
// - Any other pointer (an array of fixed size, count, a struct) is never null, and points to as many elements
//   as its type says. They need not be set if the call only writes them.
// - Every pointer is aligned as C asks for its type.
// - What a call may write (all that is not const) shares no byte with anything else that is handed to the
//   same call; count, distances, scratch and marks too. What is only read may overlap with what is only read.
// - A bool is 0 or 1 in memory.
// - Doubles are rounded to nearest, and small ones are kept, as C has it by default: no other rounding mode,
//   no flushing to zero.
//
// All else may be of any value: NaN, numbers out of range and lists too long are answered by a refusal.
//
// STACK
//
// Bytes are those of the x86-64 code at -O3: all frames along the deepest path with their return addresses, without
// what memset takes (tools/stack prints them). Those of a Cortex-M, which are more, with libgcc's routines and memset,
// stand in docs/COST.md.
//
// No call calls itself: a figure is the most that a call takes, of every list. Where Douglas-Peucker and the numbers
// split a list, the parts that wait stand in a list of twelve, of which no more than eleven are ever taken.
#ifndef SANDLINE_H
#define SANDLINE_H

#include <stdbool.h>
#include <stdint.h>

// The version of this header, and of the archive that is made beside it (docs/CHANGES.md).
#define SANDLINE_VERSION "3.0.0"
#define SANDLINE_VERSION_MAJOR 3
#define SANDLINE_VERSION_MINOR 0
#define SANDLINE_VERSION_PATCH 0

#ifdef __cplusplus
extern "C" {
#endif

// Why a call hands nothing out. If several apply the least is given, but 12 before 10.
enum sandline_number {
    SANDLINE_DONE = 0,
    SANDLINE_BAD_SIZE = 1,      // a chart's or a spiral's size out of range, a spiral's field, too few bytes
    SANDLINE_TOO_MANY = 2,      // a list has over 8,192 values, that is 4,096 points
    SANDLINE_BAD_POINT = 3,     // an odd count of values, or a coordinate out of range, NaN or infinite
    SANDLINE_TOO_FEW = 4,       // fewer points than the call can do anything with
    SANDLINE_BAD_TOLERANCE = 5, // NaN or out of range
    SANDLINE_BAD_FLAGS = 6,     // too many flags or too few, or one that is not 0 or 1
    SANDLINE_BAD_SETTINGS = 7,  // a ratio, length or pair out of range or NaN
    SANDLINE_NO_WAY = 8,        // no way on from the start of a walk, or a chart without a set pixel
    SANDLINE_STUCK = 9,         // after some run a walk has over 1,000,000 steps: it does not come back to its start
    SANDLINE_NO_ROOM = 10,      // a lent buffer is too short
    SANDLINE_BAD_FRAME = 11,    // only in the answers of sandline_answer: no frame
    SANDLINE_BAD_PICTURE = 12   // no PBM picture, or not all of one
};

// ---- Charts: a pixel, the area, and where a walk may begin.
//
// Each refuses a bad size or too few bytes: SANDLINE_BAD_SIZE.

// Whether the pixel in column x of row y is set. Refuses nothing: outside the chart, past the last byte, and
// of a chart wider than 512, no pixel is set.
// Stack of sandline_pixel: 24 bytes.
bool sandline_pixel(uint64_t width, uint64_t height, const uint8_t *pixels, uint64_t bytes, int32_t x, int32_t y);

// How many pixels are set, in count.
// Stack of sandline_area: 56 bytes.
uint8_t sandline_area(uint64_t width, uint64_t height, const uint8_t *pixels, uint64_t bytes, uint64_t *count);

// Where a walk may begin, x and y: the top left corner of the first set pixel, row by row.
// Refuses a chart without one: SANDLINE_NO_WAY.
// Stack of sandline_first_start: 16 bytes.
uint8_t sandline_first_start(uint64_t width, uint64_t height, const uint8_t *pixels, uint64_t bytes,
                             int32_t start[2]);

// ---- Walks along the outline of what is set.

// The outline of what is set, walked from the corner (x, y) of a pixel: the start, then the end of each run
// until one ends on the start. At a fork the walk tries up, right, down, left if clockwise, else left, down,
// right, up. An outline may have over 4,096 points; other calls then refuse it.
//
// A walk follows one outline. A hole, and a bank that does not touch this one, needs a walk and a start of its own.
//
// 9 says that a walk has not come back to its start. There are two reasons, each with its remedy:
// - The start lies in the middle of a straight edge, where no run ends. Start where the outline turns.
// - Pixels touch only diagonally, so that outlines meet in a point and the walk goes on along another one. The
//   smallest chart that answers 9 from its first start is
//       #.#
//       .#.
//   and of the 673 charts up to 3 by 3 that are not blank 28 do. So before the walk, wherever of the four pixels around
//   a point only two are set that lie across from each other, set the other two or clear these, until there is no such
//   point left: of the charts up to 4 by 4 without one, none answers 9 from its first start. Or start elsewhere (each
//   of the 28 has a start that is answered), or walk the other way round (24 of them are answered so); such a walk may
//   go around a part only, or along an edge twice.
//
// Room: 2 elements for each point of the outline.
// Refuses: a bad chart (1), x or y beyond 16,383 (3), a start whose four pixels are alike (8), over 1,000,000 steps
// after some run (9), no room (10).
// Stack of sandline_walk: 344 bytes.
uint8_t sandline_walk(uint64_t width, uint64_t height, const uint8_t *pixels, uint64_t bytes, int32_t x, int32_t y,
                      bool clockwise, int32_t *out, uint64_t room, uint64_t *count);

// ---- Spirals: a square of pixels, one by one from its centre outwards.

// Where a spiral stands, and how it goes on. A caller may keep it, copy it and look at it.
typedef struct sandline_spiral_walker {
    int32_t x;   // -512 to 512
    int32_t y;   // -512 to 512
    int32_t dir; // 0 to 3
    int32_t gx;  // -1 to 1
    int32_t gy;  // -1 to 1
    int32_t sq;  // 1 to 1,024
    int32_t cc;  // 0 to sq - 1
    uint64_t area; // up to 262,144
    uint64_t step; // up to area
} sandline_spiral_walker;

// The spiral of a square of size by size, 0 to 512, before its first step.
// Refuses a size beyond that: SANDLINE_BAD_SIZE.
// Stack of sandline_spiral: 8 bytes.
uint8_t sandline_spiral(uint64_t size, sandline_spiral_walker *spiral);

// One step: the place that the spiral stood on, x and y, and a count of 1; or a count of 0 where it has ended, and
// then place and spiral hold what they held. (Odd sizes from 3 leave the square, as in the Rust.)
// Refuses a field out of range: SANDLINE_BAD_SIZE, and a count of 0 too.
// Stack of sandline_spiral_advance: 48 bytes.
uint8_t sandline_spiral_advance(sandline_spiral_walker *spiral, int32_t place[2], uint64_t *count);

// ---- Pictures: charts out of Netpbm's PBM files, and into them.

// Reads the picture at the start of file, raw (P4) or plain (P1), into a chart: its rows at the start of pixels with
// their padding cleared, its sizes in width and height. Count is how many bytes of the file the picture takes. What
// stands behind them is not looked at: the next picture, if there is one, begins at file + count.
//
//     static uint8_t pixels[32768]; // room for every chart
//     uint64_t width, height, n;
//     if (sandline_read_pbm(file, length, pixels, sizeof pixels, &width, &height, &n) == SANDLINE_DONE &&
//         sandline_first_start(width, height, pixels, sizeof pixels, start) == SANDLINE_DONE) // and so on, as above
//
// A picture is P4 or P1, the width and the height in decimal digits, and the raster. White space or comments stand
// before each size, a comment being all from # to the end of its line; before the raster stands one byte of white
// space, or one comment with the end of its line. A raw raster lies as a chart does. A plain one has a digit for each
// pixel, 1 for a set one, with white space between them or without.
//
// Room: (width + 7) / 8 * height bytes.
// Refuses: a size out of range (1), as soon as both sizes are read; no room (10), and that last; what is no picture,
// a byte of a plain raster that is not 0, 1 or white space, missing pixels (12). Refused, width and height hold what
// they held.
// Stack of sandline_read_pbm: 152 bytes.
uint8_t sandline_read_pbm(const uint8_t *file, uint64_t length, uint8_t *pixels, uint64_t room, uint64_t *width,
                          uint64_t *height, uint64_t *count);

// Writes a chart to out as a raw picture: P4, newline, the width, a space, the height, newline, and the rows with their
// padding cleared. Reading it gives the chart back. Count is in bytes.
//
// Room: as many bytes, 7 to 11 for the header and (width + 7) / 8 * height for the rows; 32,779 hold every chart.
// Refuses: a bad chart (1), no room (10).
// Stack of sandline_write_pbm: 152 bytes.
uint8_t sandline_write_pbm(uint64_t width, uint64_t height, const uint8_t *pixels, uint64_t bytes, uint8_t *out,
                           uint64_t room, uint64_t *count);

// ---- Geometry: areas, midpoints, lengths, and where two lines cross.
//
// Each but the last three refuses a coordinate out of range, NaN or infinite: SANDLINE_BAD_POINT.

// Twice the area of the triangle of three points, x, y, x, y, x, y: positive where they turn clockwise. (The
// Rust's signed_area, which does not halve it.)
// Stack of sandline_signed_area: 16 bytes.
uint8_t sandline_signed_area(const int32_t points[6], int32_t *area);

// The midpoint of two points, x, y, x, y.
// Stack of sandline_find_mid_point: 8 bytes.
uint8_t sandline_find_mid_point(const double points[4], double middle[2]);

// The length of a vector, with fractions and without.
// Stack of sandline_norm: 56 bytes.
// Stack of sandline_norm_i32: 56 bytes.
uint8_t sandline_norm(double x, double y, double *length);
uint8_t sandline_norm_i32(int32_t x, int32_t y, double *length);

// Where two lines cross, each given by two of its points, x, y, x, y. Count says which it is, and how many
// values stand at the start of values:
//   0  the lines are parallel
//   2  they are one line: the midpoint of the first two points, x and y
//   4  they cross: x and y, then where that is on the first line and on the second, 0 for its first point and
//      1 for its second
// A refusal counts 0 too: look at the number first.
// Stack of sandline_find_intersection: 8 bytes.
uint8_t sandline_find_intersection(const double first[4], const double second[4], double values[4],
                                   uint64_t *count);

// What such an answer says of the two pairs of points, within 1e-3 of a ratio: whether the crossing lies outside of
// either pair, inside of both, and whether the lines are one. The values are those that
// sandline_find_intersection put, count those that it counted; any other count stands for parallel lines, of
// which all three are false. They look at the ratios alone and refuse nothing.
// Stack of sandline_outside: 8 bytes.
// Stack of sandline_inside: 8 bytes.
// Stack of sandline_coincide: 8 bytes.
bool sandline_outside(const double *values, uint64_t count);
bool sandline_inside(const double *values, uint64_t count);
bool sandline_coincide(const double *values, uint64_t count);

// ---- Simplification: an outline without staircases, and without the points that cost little.
//
// Each puts the points of a list that are left at the start of out. Each refuses too many points (2), a bad list (3)
// and no room (10): 2n elements for n points, 4 for a single one.

// Without one-pixel staircases. Clockwise says which way round the list goes.
// Stack of sandline_remove_staircase: 88 bytes.
uint8_t sandline_remove_staircase(const int32_t *points, uint64_t length, bool clockwise, int32_t *out,
                                  uint64_t room, uint64_t *count);

// Without the points that cost less than 1 to leave out: the square of the area of the triangle that goes, over
// the side that takes its place. Of two points the first alone is left; a single one is answered twice.
// Stack of sandline_limit_penalties: 248 bytes.
uint8_t sandline_limit_penalties(const int32_t *points, uint64_t length, int32_t *out, uint64_t room, uint64_t *count);

// Both, one after the other: what to do with a walked outline.
// Stack of sandline_simplify: 33,112 bytes, most of them for the list between the two.
uint8_t sandline_simplify(const int32_t *points, uint64_t length, bool clockwise, int32_t *out, uint64_t room,
                          uint64_t *count);

// ---- Corners: where an outline turns.

// A flag for each point, 1 for a corner: where the outline turns at least by the angle whose cosine and sine
// are proportional to c and s, so that 0 and 1 stand for 90 degrees. Exact, in whole numbers. It turns from the
// nearest point before that differs to the nearest behind that does, on a closed list also past its ends: so a
// point that was entered twice is no corner by that alone. Where on a side none differs there is no corner. An
// open list's ends are corners; a closed list's last point is left out, and has no flag. Count is in flags.
//
// c is -1,000 to 1,000, s 1 to 1,000. Room: n flags, n - 1 of a closed list.
// Refuses too many points (2), a bad list (3), no points (4), a bad pair (7), no room (10).
// Stack of sandline_find_corners: 432 bytes.
uint8_t sandline_find_corners(const int32_t *points, uint64_t length, int32_t c, int32_t s, bool closed,
                              uint8_t *flags, uint64_t room, uint64_t *count);

// ---- Smoothing: one round of subdivision.

// One round of subdivision: between two points a third may enter, a little outside, so that the outline is
// smoother; corners stay. Corners holds a flag for each point, as sandline_find_corners puts them (n of an open
// list, n - 1 of a closed one). The greater the ratio, the less a new point leaves its segment; a segment of at
// most the given length is left as it is. Flags starts with a flag for each point answered (a closed list's
// last has none). Finished is true if of every point that entered both new segments are at most that long, so
// also if none entered: no other round is needed.
//
// ratio is 1 to 1,000, length 0 to 65,536.
// Room: 2n - 1 points, that is 4n - 2 doubles, and 2n - 1 flags; none where n is 0.
// Refuses too many points (2), a bad list (3), a closed list of fewer than 2 points (4), bad flags (6), bad settings
// (7), no room (10); then finished holds what it held.
// Stack of sandline_subdivide_keep_corners: 296 bytes.
uint8_t sandline_subdivide_keep_corners(const double *points, uint64_t points_length, const uint8_t *corners,
                                        uint64_t corners_length, double ratio, double length, bool closed,
                                        double *out, uint64_t room, uint8_t *flags, uint64_t flag_room, uint64_t *count,
                                        bool *finished);

// ---- Zooms: fewer points, the wider the tolerance.
//
// By Douglas-Peucker, and by numbers and zoom, they nest: a point that is kept at one tolerance is kept at every lower
// one. The radial pass, and so reduce, does not nest.
//
// For six zooms of one list call sandline_numbers once and sandline_zoom six times.
//
// The work of Douglas-Peucker and of the numbers is squared distances, from a point to the segment between the ends of a
// span: of every span that they come to, one for each point inside it. For n points these are at most
// (n - 2)(n - 1) / 2, and none below two. The calls whose names end in _counted also say how many they were.
//
// Each refuses too many points (2), a bad list (3), a bad tolerance (5) and no room (10): 2n elements of out
// for n points, 4 for a single one, and what is said of the call.

// The radial pass: a point is kept if it lies farther than the tolerance from the last one kept; the first and
// the last stay. The tolerance is SQUARED, 0 to 4,294,967,296 square pixels.
// Stack of sandline_simplify_radial_dist: 104 bytes.
uint8_t sandline_simplify_radial_dist(const int32_t *points, uint64_t length, double tolerance, int32_t *out,
                                      uint64_t room, uint64_t *count);

// Douglas-Peucker at a SQUARED tolerance, 0 to 4,294,967,296. Both ends stay; one point is answered twice.
// After it marks starts with n bytes, 1 for each point kept and 0 for each dropped.
// Room: n marks too. Refuses a list of no points (4) too.
// Stack of sandline_simplify_douglas_peucker: 392 bytes.
uint8_t sandline_simplify_douglas_peucker(const int32_t *points, uint64_t length, double tolerance, int32_t *out,
                                          uint64_t room, uint8_t *marks, uint64_t mark_room, uint64_t *count);

// The same, and in distances how many were computed: 0 where it is refused.
// Stack of sandline_simplify_douglas_peucker_counted: 392 bytes.
uint8_t sandline_simplify_douglas_peucker_counted(const int32_t *points, uint64_t length, double tolerance,
                                                  int32_t *out, uint64_t room, uint8_t *marks, uint64_t mark_room,
                                                  uint64_t *count, uint64_t *distances);

// The radial pass at half the squared tolerance, then Douglas-Peucker. The tolerance is in PIXELS, 0 to 65,536.
// Up to two points, and any list at tolerance 0, are answered whole; else scratch starts with the list that
// the radial pass left, and marks with one byte for each point of that.
// Room: 2n elements of scratch and n marks too.
// Stack of sandline_reduce: 440 bytes.
uint8_t sandline_reduce(const int32_t *points, uint64_t length, double tolerance, int32_t *out, uint64_t room,
                        int32_t *scratch, uint64_t scratch_room, uint8_t *marks, uint64_t mark_room, uint64_t *count);

// One number for each point: at exactly the squared tolerances below it Douglas-Peucker keeps the point. Both
// ends have infinity. Count is n.
// Room: n doubles, 2 where n is 1. No tolerance; refuses a list of no points (4) too.
// Stack of sandline_numbers: 360 bytes.
uint8_t sandline_numbers(const int32_t *points, uint64_t length, double *out, uint64_t room, uint64_t *count);

// The same, and in distances how many were computed: as many as by Douglas-Peucker at the squared tolerance 0, and 0
// where it is refused.
// Stack of sandline_numbers_counted: 360 bytes.
uint8_t sandline_numbers_counted(const int32_t *points, uint64_t length, double *out, uint64_t room, uint64_t *count,
                                 uint64_t *distances);

// The points whose number is greater than a SQUARED tolerance, with both ends: what Douglas-Peucker answers at
// that tolerance, at the cost of one comparison for each point. The numbers are those of the same list; numbers_length
// other than n is a bad list (3).
// Refuses a list of no points (4) too.
// Stack of sandline_zoom: 56 bytes.
uint8_t sandline_zoom(const int32_t *points, uint64_t length, const double *numbers, uint64_t numbers_length,
                      double tolerance, int32_t *out, uint64_t room, uint64_t *count);

// ---- Square roots.

// The square root as IEEE 754 has it: the double nearest to the exact root, ties to even. -0 gives -0, and NaN
// or below zero gives NaN. The second takes and gives a double's bits, its NaN always 0x7ff8000000000000.
//
// Both may be called from an interrupt that has 512 bytes of stack. They are worked out bit by bit, without a division
// and without a table; what they take on a Cortex-M, libgcc's routines included, stands here too (guide/interrupt runs
// them so). Of the 512 bytes 456 are left on a Cortex-M4, and 432 on a Cortex-M0+.
// Stack of sandline_sqrt: 24 bytes; on a Cortex-M4 56, on a Cortex-M0+ 80.
// Stack of sandline_sqrt_bits: 8 bytes; on a Cortex-M4 40, on a Cortex-M0+ 72.
double sandline_sqrt(double x);
uint64_t sandline_sqrt_bits(uint64_t bits);

// ---- Frames: a call as a line of hexadecimal digits.

// The answer to a frame: a line of hexadecimal digits, with no end of line, as document 01 has them under "Frames".
// It is written from out[at] on, also with no end of line, and the place behind it is returned; where it does not fit
// nothing is written, and at itself is returned. An answer has 8 digits at least, and 32,768 at most.
// Whatever the line holds is answered; what is no frame by ff0b0000. Out and at are in digits.
// Stack of sandline_answer: 119,304 bytes.
uint64_t sandline_answer(const uint8_t *line, uint64_t length, uint8_t *out, uint64_t room, uint64_t at);

#ifdef __cplusplus
}
#endif

#endif
