// The guide's screen for the planner's page: what the firmware draws of an outline, by the same code (guide/zooms.c,
// guide/screen.c).
#include "../guide/screen.h"
#include "../guide/zooms.h"
#include "sandline.h"

const uint8_t *guide_screen(void) {
    return screen;
}

// Draws the six zooms of an outline and its numbers, as guide/guide.c does; how many points each shows stands in shown.
// Room: 8,192 elements of scratch. The chart and the list are such that the calls before took them; what a zoom then
// refuses would be told by its number.
uint8_t guide_draw(uint64_t width, uint64_t height, const uint8_t *chart, uint64_t bytes, const int32_t *kept,
                   const double *numbers, uint64_t points, int32_t party_x, int32_t party_y, int32_t *scratch,
                   uint64_t shown[ZOOMS]) {
    const survey of = {chart, bytes, width, height, kept, numbers, points, party_x, party_y};
    draw_frames();
    for (int zoom = 0; zoom < ZOOMS; zoom++) {
        const uint8_t number =
            sandline_zoom(kept, 2 * points, numbers, points, squared_tolerances[zoom], scratch, 8192, &shown[zoom]);
        if (number != SANDLINE_DONE) return number;
        draw_zoom(&of, zoom, scratch, shown[zoom]);
    }
    return SANDLINE_DONE;
}
