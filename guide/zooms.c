// Six zooms of a survey on the guide's screen: three beside each other, in two rows.
#include "zooms.h"

#include "sandline.h"
#include "screen.h"

const double squared_tolerances[ZOOMS] = {16, 4, 1, 1.0 / 4, 1.0 / 16, 1.0 / 64};

static const char *const scales[ZOOMS] = {"1/4", "1/2", "1", "2", "4", "8"};

typedef struct {
    window in;
    int zoom;
    int x, y; // the cell in its middle
} view;

static int scaled(int cells, int zoom) {
    return cells * (1 << zoom) / 4;
}

static int screen_x(const view *v, int x) {
    return v->in.left + v->in.width / 2 + scaled(x - v->x, v->zoom);
}

static int screen_y(const view *v, int y) {
    return v->in.top + v->in.height / 2 + scaled(y - v->y, v->zoom);
}

// A dot every four pixels where the survey has sand.
static void draw_sand(const view *v, const survey *of) {
    const int middle_x = v->in.width / 2, middle_y = v->in.height / 2;
    for (int y = 2; y < v->in.height; y += 4)
        for (int x = 2; x < v->in.width; x += 4) {
            const int cell_x = v->x + ((x - middle_x) * 4 >> v->zoom), cell_y = v->y + ((y - middle_y) * 4 >> v->zoom);
            if (sandline_pixel(of->width, of->height, of->chart, of->bytes, cell_x, cell_y))
                draw_pixel(&v->in, v->in.left + x, v->in.top + y);
        }
}

static void draw_outline(const view *v, const int32_t *list, uint64_t many) {
    for (uint64_t k = 1; k < many; k++)
        draw_line(&v->in, screen_x(v, list[2 * k - 2]), screen_y(v, list[2 * k - 1]), screen_x(v, list[2 * k]),
                  screen_y(v, list[2 * k + 1]));
}

// The points of the widest zoom, which every nearer one has too. (There they are all of its corners.)
static void draw_lasting_points(const view *v, const survey *of) {
    if (v->zoom == 0) return;
    for (uint64_t k = 0; k < of->points; k++)
        if (of->numbers[k] > squared_tolerances[0])
            draw_box(&v->in, screen_x(v, of->kept[2 * k]) - 1, screen_y(v, of->kept[2 * k + 1]) - 1, 3, 3, true);
}

// Its scale on the left, how many points it draws on the right.
static void draw_label(const view *v, uint64_t many) {
    const int left = v->in.left, right = left + v->in.width, top = v->in.top;
    draw_box(&v->in, left, top, 17, 9, false);
    draw_text(&v->in, left + 2, top + 2, scales[v->zoom]);
    draw_box(&v->in, right - 19, top, 19, 9, false);
    draw_number(&v->in, right - 17, top + 2, (uint32_t)many);
}

static void draw_party(const view *v, int x, int y) {
    const int at_x = screen_x(v, x), at_y = screen_y(v, y);
    draw_box(&v->in, at_x - 4, at_y - 4, 9, 9, false);
    draw_line(&v->in, at_x - 3, at_y, at_x + 3, at_y);
    draw_line(&v->in, at_x, at_y - 3, at_x, at_y + 3);
}

static view view_of(int zoom, int x, int y) {
    const view v = {{134 * (zoom % 3), 121 * (zoom / 3), 132, 119}, zoom, x, y};
    return v;
}

void draw_frames(void) {
    const window all = {0, 0, SCREEN_WIDTH, SCREEN_HEIGHT};
    clear_screen();
    draw_box(&all, 132, 0, 2, SCREEN_HEIGHT, true);
    draw_box(&all, 266, 0, 2, SCREEN_HEIGHT, true);
    draw_box(&all, 0, 119, SCREEN_WIDTH, 2, true);
}

void draw_zoom(const survey *of, int zoom, const int32_t *list, uint64_t many) {
    const view v = zoom == 0 ? view_of(zoom, (int)of->width / 2, (int)of->height / 2)
                             : view_of(zoom, of->party_x, of->party_y);
    draw_sand(&v, of);
    draw_party(&v, of->party_x, of->party_y);
    draw_outline(&v, list, many);
    draw_lasting_points(&v, of);
    draw_label(&v, many);
}
