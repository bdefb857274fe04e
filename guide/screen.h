// The guide's screen: 400 by 240 pixels, one bit each, a set one black. It lies in memory as a chart does: rows from
// the top, the leftmost pixel of a byte the highest bit.
#ifndef SCREEN_H
#define SCREEN_H

#include <stdbool.h>
#include <stdint.h>

enum { SCREEN_WIDTH = 400, SCREEN_HEIGHT = 240, SCREEN_BYTES = SCREEN_WIDTH / 8 * SCREEN_HEIGHT };

extern uint8_t screen[SCREEN_BYTES];

// A part of the screen: drawing leaves the rest as it is.
typedef struct {
    int left, top, width, height;
} window;

void clear_screen(void);
void draw_pixel(const window *in, int x, int y);
void draw_line(const window *in, int x, int y, int to_x, int to_y);
void draw_box(const window *in, int left, int top, int width, int height, bool black);

// Digits, / and a space, 3 by 5 pixels each in a column of 4; where it ends.
int draw_text(const window *in, int x, int y, const char *text);
int draw_number(const window *in, int x, int y, uint32_t number);

#endif
