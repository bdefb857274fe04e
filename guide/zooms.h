// Six zooms of a survey on the guide's screen, from the whole bank to eight pixels a cell where the party stands.
#ifndef ZOOMS_H
#define ZOOMS_H

#include <stdint.h>

enum { ZOOMS = 6 };

// A zoom shows 2 to the power of its place here pixels for four cells, and leaves out what is nearer than a pixel to the
// line that it draws.
extern const double squared_tolerances[ZOOMS];

// What is drawn: the chart, the outline of its bank, simplified, the number of each of its points, and the cell where
// the party stands.
typedef struct {
    const uint8_t *chart;
    uint64_t bytes, width, height;
    const int32_t *kept;
    const double *numbers;
    uint64_t points;
    int party_x, party_y;
} survey;

// An empty screen, with black between the six.
void draw_frames(void);

// A zoom, by the points that it keeps. The widest has the chart's middle in its own, the others the party.
void draw_zoom(const survey *of, int zoom, const int32_t *list, uint64_t many);

#endif
