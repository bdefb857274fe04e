#include "screen.h"

uint8_t screen[SCREEN_BYTES];

void clear_screen(void) {
    for (int k = 0; k < SCREEN_BYTES; k++) screen[k] = 0;
}

static bool inside(const window *in, int x, int y) {
    return x >= in->left && x < in->left + in->width && y >= in->top && y < in->top + in->height;
}

static void put(const window *in, int x, int y, bool black) {
    if (!inside(in, x, y)) return;
    uint8_t *byte = &screen[SCREEN_WIDTH / 8 * y + x / 8];
    const uint8_t bit = (uint8_t)(0x80 >> x % 8);
    *byte = (uint8_t)(black ? *byte | bit : *byte & ~bit);
}

void draw_pixel(const window *in, int x, int y) {
    put(in, x, y, true);
}

static int distance(int a, int b) {
    return a < b ? b - a : a - b;
}

// Bresenham's line: from pixel to pixel, the one beside or the one across, whichever lies nearer. `off` is how far the
// line lies to one side, in units in which a step along one axis costs the length along the other.
void draw_line(const window *in, int x, int y, int to_x, int to_y) {
    const int along = distance(x, to_x), down = distance(y, to_y);
    const int step_x = x < to_x ? 1 : -1, step_y = y < to_y ? 1 : -1;
    int off = along - down;
    for (;;) {
        draw_pixel(in, x, y);
        if (x == to_x && y == to_y) return;
        const int twice = 2 * off;
        if (twice > -down) off -= down, x += step_x;
        if (twice < along) off += along, y += step_y;
    }
}

void draw_box(const window *in, int left, int top, int width, int height, bool black) {
    for (int y = top; y < top + height; y++)
        for (int x = left; x < left + width; x++) put(in, x, y, black);
}

// Five rows of three bits, the highest on top.
static int glyph(char letter) {
    static const uint16_t digits[] = {
        075557, // 0
        026227, // 1
        071747, // 2
        071717, // 3
        055711, // 4
        074717, // 5
        074757, // 6
        071111, // 7
        075757, // 8
        075717, // 9
    };
    return letter == '/' ? 011244 : letter >= '0' && letter <= '9' ? digits[letter - '0'] : 0;
}

int draw_text(const window *in, int x, int y, const char *text) {
    for (; *text; text++, x += 4)
        for (int bit = 0; bit < 15; bit++)
            if (glyph(*text) >> (14 - bit) & 1) draw_pixel(in, x + bit % 3, y + bit / 3);
    return x;
}

int draw_number(const window *in, int x, int y, uint32_t number) {
    const char digit[] = {(char)('0' + number % 10), 0};
    if (number > 9) x = draw_number(in, x, y, number / 10);
    return draw_text(in, x, y, digit);
}
