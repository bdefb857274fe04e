// One redraw of the guide's screen. The night survey is read out of its picture; the outline of its bank is walked and
// simplified; every point of it gets its number, once; and by these numbers six zooms are drawn, from the whole bank to
// eight pixels a cell where the party stands. All that it keeps stands in fixed buffers.
#include "board.h"
#include "sandline.h"
#include "screen.h"
#include "zooms.h"

// The survey, a PBM file, as the planner has handed it over: read-only memory.
extern const uint8_t file[], file_end[];
__asm__(".section .survey, \"a\"\n.global file, file_end\nfile: .incbin \"survey.pbm\"\nfile_end:\n.text");

// The cell where the party stands: guide/run may say which, and else it is the middle of the chart.
#ifndef PARTY_X
#define PARTY_X ((int)width / 2)
#define PARTY_Y ((int)height / 2)
#endif

// A zigzag of so many points is worked on first, to see what the worst list takes.
#ifndef ZIGZAG
#define ZIGZAG 0
#endif

enum { MOST_POINTS = 4096, MOST_VALUES = 2 * MOST_POINTS };

static uint8_t chart[512 / 8 * 512];
static uint64_t width, height;
static int32_t walked[MOST_VALUES]; // the outline; then, in turn, what a zoom keeps, and the picture of the screen
static int32_t kept[MOST_VALUES];   // the outline, simplified
static double numbers[MOST_POINTS]; // the number of each of its points
static uint64_t points;             // how many it has

// ---- what is told of a redraw

static void said(const char *what, uint64_t number) {
    say(what);
    say_number(number);
}

static uint64_t in_all;
static uint32_t most_stack;

static uint32_t begin(void) {
    paint_stack();
    return now();
}

// A step, and the line that tells of it up to its last words.
static void took(const char *step, uint64_t instructions) {
    const uint32_t stack = (uint32_t)stack_used();
    in_all += instructions;
    if (stack > most_stack) most_stack = stack;
    said(step, instructions);
    said(" instructions, stack ", stack);
}

// Nothing is drawn of a survey that is refused: the screen goes on showing the last one, and a line says why.
static void need(uint8_t number, const char *call) {
    static const char *const why[] = {
        [SANDLINE_BAD_SIZE] = "it is not 1 to 512 cells wide and high",
        [SANDLINE_TOO_MANY] = "the outline has over 4,096 points",
        [SANDLINE_NO_WAY] = "it has no sand",
        [SANDLINE_STUCK] = "cells touch only diagonally somewhere, and the outline does not close",
        [SANDLINE_NO_ROOM] = "the outline has over 4,096 points",
        [SANDLINE_BAD_PICTURE] = "it is no PBM picture, or not all of one",
    };
    if (number == SANDLINE_DONE) return;
    say("guide: ");
    say(call);
    said(" is refused (", number);
    say(number < sizeof why / sizeof *why && why[number] != NULL ? "): " : ")");
    if (number < sizeof why / sizeof *why && why[number] != NULL) say(why[number]);
    say("\n");
    end(2);
}

// The numbers of a zigzag of which each split takes one point off: no list of so many points has more distances.
static void zigzag(int32_t many) {
    uint64_t length, distances;
    for (int32_t k = 0; k < many; k++) {
        walked[2 * k] = k;
        walked[2 * k + 1] = k % 2 * k;
    }
    const uint32_t time = begin();
    need(sandline_numbers_counted(walked, 2 * (uint64_t)many, numbers, MOST_POINTS, &length, &distances), "the zigzag");
    took("zigzag     ", instructions_since(time));
    said(", ", length);
    said(" points, ", distances);
    say(" distances\n");
    in_all = 0;
}

static void read_survey(void) {
    uint64_t length;
    const uint32_t time = begin();
    need(sandline_read_pbm(file, (uint64_t)(file_end - file), chart, sizeof chart, &width, &height, &length),
         "the survey");
    took("read       ", instructions_since(time));
    said(", ", width);
    said(" by ", height);
    say(" cells\n");
}

static void find_outline(void) {
    int32_t start[2];
    uint32_t time = begin();
    need(sandline_first_start(width, height, chart, sizeof chart, start), "the survey");
    need(sandline_walk(width, height, chart, sizeof chart, start[0], start[1], true, walked, MOST_VALUES, &points),
         "the survey");
    took("walk       ", instructions_since(time));
    said(", ", points);
    say(" points\n");

    time = begin();
    need(sandline_simplify(walked, 2 * points, true, kept, MOST_VALUES, &points), "the outline");
    took("simplify   ", instructions_since(time));
    said(", ", points);
    say(" points\n");

    uint64_t length;
    time = begin();
    need(sandline_numbers(kept, 2 * points, numbers, MOST_POINTS, &length), "the outline");
    took("numbers    ", instructions_since(time));
    say("\n");
}

static void draw_zooms(void) {
    const survey of = {chart, sizeof chart, width, height, kept, numbers, points, PARTY_X, PARTY_Y};
    uint64_t shown[ZOOMS];
    uint64_t zooming = 0, drawing = 0;
    uint32_t time = begin();
    draw_frames();
    drawing += instructions_since(time);
    for (int zoom = 0; zoom < ZOOMS; zoom++) {
        time = now();
        need(sandline_zoom(kept, 2 * points, numbers, points, squared_tolerances[zoom], walked, MOST_VALUES,
                           &shown[zoom]),
             "a zoom");
        zooming += instructions_since(time);
        time = now();
        draw_zoom(&of, zoom, walked, shown[zoom]);
        drawing += instructions_since(time);
    }
    took("six zooms  ", zooming);
    for (int zoom = 0; zoom < ZOOMS; zoom++) said(zoom ? " " : ", ", shown[zoom]);
    took(" points\ndrawing    ", drawing);
    say("\n");
}

int main(void) {
    uint64_t length;
    if (ZIGZAG > 0) zigzag(ZIGZAG);
    read_survey();
    find_outline();
    draw_zooms();
    said("in all     ", in_all);
    said(" instructions\nstack      ", most_stack);
    said(" of ", stack_room());
    said(" bytes\nleft       ", memory_left());
    say(" bytes of memory\n");

    need(sandline_write_pbm(SCREEN_WIDTH, SCREEN_HEIGHT, screen, sizeof screen, (uint8_t *)walked, sizeof walked,
                            &length),
         "the picture of the screen");
    save("screen.pbm", (const uint8_t *)walked, (size_t)length);
    return 0;
}
