// Faulty numbers, to see that the drivers find what they are there to find. FAULT in the environment picks one. It is
// linked with -Wl,--wrap=sandline_numbers, so that the library's own call goes on under another name.
#include <stdlib.h>

#include "sandline.h"

uint8_t __real_sandline_numbers(const int32_t *points, size_t length, double *out, size_t room, size_t *count);
uint8_t __wrap_sandline_numbers(const int32_t *points, size_t length, double *out, size_t room, size_t *count);

volatile int32_t seen; // so that what is read is not left out

uint8_t __wrap_sandline_numbers(const int32_t *points, size_t length, double *out, size_t room, size_t *count) {
    static unsigned turn;
    const char *fault = getenv("FAULT");
    size_t old = *count;
    uint8_t number = __real_sandline_numbers(points, length, out, room, count);
    switch (fault ? *fault : '0') {
    case '1': if (length) seen = points[length]; break;                  // reads a value behind the list
    case '2': if (length) seen = points[-1]; break;                      // and before it
    case '3': if (number == 0) out[room] = 1; break;                     // writes behind the room
    case '4': if (number == 0) out[-1] = 1; break;                       // and before it
    case '5': if (number == 0 && *count < room) out[*count] = 1; break;  // writes past the answer
    case '6': if (number != 0 && room) out[0] = 1; break;                // a refusal writes
    case '7': if (number != 0) *count = old; break;                      // a refusal that leaves the count
    case '8': if (number == 10) number = 0; break;                       // done, without room
    case '9': if (number == 0) out[0] = (double)turn++; break;           // each call answers something else
    case 'a': if (length == 10) for (;;) seen = 0; break;                // does not end
    case 'b': if (number == 4 && length == 0) number = 13; break;        // a number that is none
    }
    return number;
}
