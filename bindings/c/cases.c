// Answers cases in the oracle's text form (oracle/README.md, "The text form") by the calls of sandline.h: a case a
// line on standard input, an answer a line on standard output. So the lists that the original Rust has answered,
// crates/cases, can be replayed through C, and `OURS=.. oracle/compare NAME COUNT SEED` can compare more.
// With the argument `frames` each line is a frame.
//
// Every lent buffer has exactly the room that the case says, between places that no call may write; a buffer without
// room, and a list without values, is a null pointer. Lines are trusted to be cases.
#include <stdio.h>
#include <stdlib.h>
#include <string.h>

#include "sandline.h"

// ---- words

#define WORDS 12
static char *word[WORDS];
static size_t next_word;

static char *next(void) {
    if (next_word == WORDS || word[next_word] == NULL) {
        fprintf(stderr, "cases: a word is missing\n");
        exit(2);
    }
    return word[next_word++];
}

static void split(char *line) {
    next_word = 0;
    for (size_t k = 0; k < WORDS; k++) {
        word[k] = line;
        if (line == NULL) continue;
        line = strchr(line, ' ');
        if (line != NULL) *line++ = 0;
    }
}

static int32_t integer(void) {
    return (int32_t)strtol(next(), NULL, 10);
}

static uint64_t size(void) {
    return strtoull(next(), NULL, 10);
}

static bool yes(void) {
    return strcmp(next(), "1") == 0;
}

static double real_of(uint64_t bits) {
    double value;
    memcpy(&value, &bits, sizeof value);
    return value;
}

static uint64_t bits_of(double value) {
    uint64_t bits;
    memcpy(&bits, &value, sizeof bits);
    return bits;
}

static double real(void) {
    return real_of(strtoull(next(), NULL, 16));
}

// ---- memory

// What a lent place holds before a call; MARGIN places on each side are not lent.
enum { MARGIN = 8, MARKER = -99999, MARKER_BYTE = 0xee };

static void *taken[16];
static size_t takings;

static void *take(size_t bytes) {
    void *memory = malloc(bytes);
    if (memory == NULL || takings == sizeof taken / sizeof *taken) {
        fprintf(stderr, "cases: no memory\n");
        exit(2);
    }
    taken[takings++] = memory;
    return memory;
}

static void give_back(void) {
    while (takings > 0) free(taken[--takings]);
}

// A list of values, or a lent buffer.
typedef struct {
    int32_t *at;
    size_t length;
} values;

typedef struct {
    double *at;
    size_t length;
} reals;

typedef struct {
    uint8_t *at;
    size_t length;
} bytes;

static size_t commas(const char *list) {
    size_t k = 0;
    for (; *list; list++) k += *list == ',';
    return k;
}

static values values_list(void) {
    values list = {NULL, 0};
    char *text = next();
    if (strcmp(text, "-") == 0) return list;
    list.length = commas(text) + 1;
    list.at = (int32_t *)take(list.length * sizeof *list.at);
    for (size_t k = 0; k < list.length; k++, text++) list.at[k] = (int32_t)strtol(text, &text, 10);
    return list;
}

static reals reals_list(void) {
    reals list = {NULL, 0};
    char *text = next();
    if (strcmp(text, "-") == 0) return list;
    list.length = commas(text) + 1;
    list.at = (double *)take(list.length * sizeof *list.at);
    for (size_t k = 0; k < list.length; k++, text++) list.at[k] = real_of(strtoull(text, &text, 16));
    return list;
}

static bytes bytes_list(void) {
    bytes list = {NULL, 0};
    const char *text = next();
    if (strcmp(text, "-") == 0) return list;
    list.length = strlen(text) / 2;
    list.at = (uint8_t *)take(list.length);
    for (size_t k = 0; k < list.length; k++) {
        const char pair[] = {text[2 * k], text[2 * k + 1], 0};
        list.at[k] = (uint8_t)strtoul(pair, NULL, 16);
    }
    return list;
}

static values lend_values(void) {
    values lent = {NULL, (size_t)size()};
    size_t all = lent.length + 2 * MARGIN;
    int32_t *memory = (int32_t *)take(all * sizeof *memory);
    for (size_t k = 0; k < all; k++) memory[k] = MARKER;
    lent.at = memory + MARGIN;
    return lent;
}

static reals lend_reals(void) {
    reals lent = {NULL, (size_t)size()};
    size_t all = lent.length + 2 * MARGIN;
    double *memory = (double *)take(all * sizeof *memory);
    for (size_t k = 0; k < all; k++) memory[k] = MARKER;
    lent.at = memory + MARGIN;
    return lent;
}

static bytes lend_bytes(void) {
    bytes lent = {NULL, (size_t)size()};
    size_t all = lent.length + 2 * MARGIN;
    uint8_t *memory = (uint8_t *)take(all);
    memset(memory, MARKER_BYTE, all);
    lent.at = memory + MARGIN;
    return lent;
}

// Where a call may write: nowhere if there is no room.
#define AT(lent) ((lent).length > 0 ? (lent).at : NULL)

// ---- answers. Each shows the whole of a lent buffer, and looks at the places beside it.

static void beside(bool kept) {
    if (!kept) printf(" WRITTEN BESIDE A BUFFER");
}

static void show_values(values lent) {
    bool kept = true;
    printf(lent.length > 0 ? " " : " -");
    for (size_t k = 0; k < lent.length; k++) printf("%s%d", k ? "," : "", (int)lent.at[k]);
    for (size_t k = 1; k <= MARGIN; k++) kept &= *(lent.at - k) == MARKER && lent.at[lent.length + k - 1] == MARKER;
    beside(kept);
}

static void show_real(double value) {
    printf(" %016llx", (unsigned long long)bits_of(value));
}

static void show_reals(reals lent) {
    bool kept = true;
    printf(lent.length > 0 ? " " : " -");
    for (size_t k = 0; k < lent.length; k++)
        printf("%s%016llx", k ? "," : "", (unsigned long long)bits_of(lent.at[k]));
    for (size_t k = 1; k <= MARGIN; k++) {
        kept &= bits_of(*(lent.at - k)) == bits_of(MARKER);
        kept &= bits_of(lent.at[lent.length + k - 1]) == bits_of(MARKER);
    }
    beside(kept);
}

static void show_bytes(bytes lent) {
    bool kept = true;
    printf(lent.length > 0 ? " " : " -");
    for (size_t k = 0; k < lent.length; k++) printf("%02x", lent.at[k]);
    for (size_t k = 1; k <= MARGIN; k++)
        kept &= *(lent.at - k) == MARKER_BYTE && lent.at[lent.length + k - 1] == MARKER_BYTE;
    beside(kept);
}

// What a count holds before a call, to see that it is written.
static uint64_t count = 77, distances = 77;

static void show_answer(uint8_t number) {
    printf("%d %llu", number, (unsigned long long)count);
    count = 77;
}

static void show_work(uint8_t number) {
    show_answer(number);
    printf(" %llu", (unsigned long long)distances);
    distances = 77;
}

// ---- the calls

static void pixel(void) {
    uint64_t width = size(), height = size();
    bytes rows = bytes_list();
    int32_t x = integer(), y = integer();
    printf("%d", sandline_pixel(width, height, rows.at, rows.length, x, y));
}

static void area(void) {
    uint64_t width = size(), height = size();
    bytes rows = bytes_list();
    show_answer(sandline_area(width, height, rows.at, rows.length, &count));
}

static void first_start(void) {
    uint64_t width = size(), height = size();
    bytes rows = bytes_list();
    int32_t start[2] = {0, 0};
    uint8_t number = sandline_first_start(width, height, rows.at, rows.length, start);
    printf("%d %d %d", number, (int)start[0], (int)start[1]);
}

static void walk(void) {
    bool clockwise = yes();
    uint64_t width = size(), height = size();
    bytes rows = bytes_list();
    int32_t x = integer(), y = integer();
    values out = lend_values();
    show_answer(sandline_walk(width, height, rows.at, rows.length, x, y, clockwise, AT(out), out.length, &count));
    show_values(out);
}

static void read_pbm(void) {
    bytes file = bytes_list(), pixels = lend_bytes();
    uint64_t width = 0, height = 0;
    uint8_t number =
        sandline_read_pbm(file.at, file.length, AT(pixels), pixels.length, &width, &height, &count);
    printf("%d %llu %llu %llu", number, (unsigned long long)width, (unsigned long long)height,
           (unsigned long long)count);
    count = 77;
    show_bytes(pixels);
}

static void write_pbm(void) {
    uint64_t width = size(), height = size();
    bytes rows = bytes_list(), out = lend_bytes();
    show_answer(sandline_write_pbm(width, height, rows.at, rows.length, AT(out), out.length, &count));
    show_bytes(out);
}

static void show_spiral(const sandline_spiral_walker *s) {
    printf(" %d %d %d %d %d %d %d %llu %llu", (int)s->x, (int)s->y, (int)s->dir, (int)s->gx, (int)s->gy, (int)s->sq,
           (int)s->cc, (unsigned long long)s->area, (unsigned long long)s->step);
}

static void spiral(void) {
    sandline_spiral_walker s;
    uint8_t number = sandline_spiral(size(), &s);
    printf("%d", number);
    if (number == SANDLINE_DONE) show_spiral(&s);
}

static void spiral_step(void) {
    sandline_spiral_walker s;
    int32_t place[2] = {MARKER, MARKER};
    uint8_t number;
    s.x = integer();
    s.y = integer();
    s.dir = integer();
    s.gx = integer();
    s.gy = integer();
    s.sq = integer();
    s.cc = integer();
    s.area = size();
    s.step = size();
    number = sandline_spiral_advance(&s, place, &count);
    printf("%d", number);
    if (number == SANDLINE_DONE && count == 0) printf(" none");
    if (number == SANDLINE_DONE && count == 1) printf(" %d %d", (int)place[0], (int)place[1]);
    show_spiral(&s);
}

static void remove_staircase(void) {
    bool clockwise = yes();
    values points = values_list(), out = lend_values();
    show_answer(sandline_remove_staircase(points.at, points.length, clockwise, AT(out), out.length, &count));
    show_values(out);
}

static void limit_penalties(void) {
    values points = values_list(), out = lend_values();
    show_answer(sandline_limit_penalties(points.at, points.length, AT(out), out.length, &count));
    show_values(out);
}

static void simplify(void) {
    bool clockwise = yes();
    values points = values_list(), out = lend_values();
    show_answer(sandline_simplify(points.at, points.length, clockwise, AT(out), out.length, &count));
    show_values(out);
}

static void radial(void) {
    double tolerance = real();
    values points = values_list(), out = lend_values();
    show_answer(sandline_simplify_radial_dist(points.at, points.length, tolerance, AT(out), out.length, &count));
    show_values(out);
}

static void douglas_peucker(void) {
    double tolerance = real();
    values points = values_list(), out = lend_values();
    bytes marks = lend_bytes();
    show_answer(sandline_simplify_douglas_peucker(points.at, points.length, tolerance, AT(out), out.length, AT(marks),
                                                  marks.length, &count));
    show_values(out);
    show_bytes(marks);
}

static void douglas_peucker_counted(void) {
    double tolerance = real();
    values points = values_list(), out = lend_values();
    bytes marks = lend_bytes();
    show_work(sandline_simplify_douglas_peucker_counted(points.at, points.length, tolerance, AT(out), out.length,
                                                        AT(marks), marks.length, &count, &distances));
    show_values(out);
    show_bytes(marks);
}

static void reduce(void) {
    double tolerance = real();
    values points = values_list(), out = lend_values(), scratch = lend_values();
    bytes marks = lend_bytes();
    show_answer(sandline_reduce(points.at, points.length, tolerance, AT(out), out.length, AT(scratch), scratch.length,
                                AT(marks), marks.length, &count));
    show_values(out);
    show_values(scratch);
    show_bytes(marks);
}

static void numbers(void) {
    values points = values_list();
    reals out = lend_reals();
    show_answer(sandline_numbers(points.at, points.length, AT(out), out.length, &count));
    show_reals(out);
}

static void numbers_counted(void) {
    values points = values_list();
    reals out = lend_reals();
    show_work(sandline_numbers_counted(points.at, points.length, AT(out), out.length, &count, &distances));
    show_reals(out);
}

static void zoom(void) {
    double tolerance = real();
    values points = values_list();
    reals by = reals_list();
    values out = lend_values();
    show_answer(sandline_zoom(points.at, points.length, by.at, by.length, tolerance, AT(out), out.length, &count));
    show_values(out);
}

static void root(void) {
    double value = sandline_sqrt(real());
    if (value != value) printf("nan");
    else printf("%016llx", (unsigned long long)bits_of(value));
}

static void root_bits(void) {
    printf("%016llx", (unsigned long long)sandline_sqrt_bits(strtoull(next(), NULL, 16)));
}

static void signed_area(void) {
    int32_t points[6], found = MARKER;
    uint8_t number;
    for (size_t k = 0; k < 6; k++) points[k] = integer();
    number = sandline_signed_area(points, &found);
    printf("%d", number);
    if (number == SANDLINE_DONE) printf(" %d", (int)found);
}

static void measured(uint8_t number, const double *values_of, size_t many) {
    printf("%d", number);
    for (size_t k = 0; number == SANDLINE_DONE && k < many; k++) show_real(values_of[k]);
}

static void norm(void) {
    double x = real(), y = real(), length = MARKER;
    measured(sandline_norm(x, y, &length), &length, 1);
}

static void norm_i32(void) {
    int32_t x = integer(), y = integer();
    double length = MARKER;
    measured(sandline_norm_i32(x, y, &length), &length, 1);
}

static void mid_point(void) {
    double points[4], middle[2] = {MARKER, MARKER};
    for (size_t k = 0; k < 4; k++) points[k] = real();
    measured(sandline_find_mid_point(points, middle), middle, 2);
}

static void show_says(const double *crossing, uint64_t many) {
    printf("%d %d %d", sandline_outside(crossing, many), sandline_inside(crossing, many),
           sandline_coincide(crossing, many));
}

static void intersection(void) {
    double first[4], second[4], found[4] = {MARKER, MARKER, MARKER, MARKER};
    uint8_t number;
    for (size_t k = 0; k < 4; k++) first[k] = real();
    for (size_t k = 0; k < 4; k++) second[k] = real();
    number = sandline_find_intersection(first, second, found, &count);
    printf("%d", number);
    if (number != SANDLINE_DONE) return;
    printf(count == 0 ? " parallel" : count == 2 ? " coincide" : " cross");
    for (size_t k = 0; k < count; k++) show_real(found[k]);
    printf(" ");
    show_says(found, count);
}

static void ratios(void) {
    double crossing[4] = {0, 0, 0, 0};
    crossing[2] = real();
    crossing[3] = real();
    show_says(crossing, 4);
}

static void corners(void) {
    int32_t c = integer(), s = integer();
    bool closed = yes();
    values points = values_list();
    bytes flags = lend_bytes();
    show_answer(sandline_find_corners(points.at, points.length, c, s, closed, AT(flags), flags.length, &count));
    show_bytes(flags);
}

static void subdivide(void) {
    double ratio = real(), length = real();
    bool closed = yes(), finished = false;
    reals points = reals_list();
    bytes kept = bytes_list();
    reals out = lend_reals();
    bytes flags = lend_bytes();
    show_answer(sandline_subdivide_keep_corners(points.at, points.length, kept.at, kept.length, ratio, length, closed,
                                                AT(out), out.length, AT(flags), flags.length, &count, &finished));
    printf(" %d", finished);
    show_reals(out);
    show_bytes(flags);
}

static const struct {
    const char *name;
    void (*answer)(void);
} known[] = {
    {"pixel", pixel},
    {"area", area},
    {"first_start", first_start},
    {"walk", walk},
    {"read_pbm", read_pbm},
    {"write_pbm", write_pbm},
    {"spiral", spiral},
    {"spiral_step", spiral_step},
    {"remove_staircase", remove_staircase},
    {"limit_penalties", limit_penalties},
    {"simplify", simplify},
    {"radial", radial},
    {"douglas_peucker", douglas_peucker},
    {"douglas_peucker_counted", douglas_peucker_counted},
    {"reduce", reduce},
    {"numbers", numbers},
    {"numbers_counted", numbers_counted},
    {"zoom", zoom},
    {"sqrt", root},
    {"sqrt_bits", root_bits},
    {"signed_area", signed_area},
    {"norm", norm},
    {"norm_i32", norm_i32},
    {"mid_point", mid_point},
    {"intersection", intersection},
    {"ratios", ratios},
    {"corners", corners},
    {"subdivide", subdivide},
};

static void answer(char *line) {
    const char *name;
    split(line);
    name = next();
    for (size_t k = 0; k < sizeof known / sizeof *known; k++) {
        if (strcmp(name, known[k].name) != 0) continue;
        known[k].answer();
        give_back();
        return;
    }
    printf("bad line");
}

// A frame's answer has up to 32,768 digits.
static void answer_frame(const char *line, size_t length) {
    static uint8_t out[32768];
    uint64_t digits = sandline_answer((const uint8_t *)line, length, out, sizeof out, 0);
    fwrite(out, 1, (size_t)digits, stdout);
}

// Reads a line of any length, without its end, into memory that grows. False at the end of the input.
static bool read_line(char **line, size_t *room, size_t *length) {
    int c = getchar();
    *length = 0;
    if (c == EOF) return false;
    for (; c != EOF && c != '\n'; c = getchar()) {
        if (*length + 1 >= *room) {
            char *more = (char *)realloc(*line, *room = 2 * *room + 64);
            if (more == NULL) exit(2);
            *line = more;
        }
        (*line)[(*length)++] = (char)c;
    }
    if (*line == NULL && (*line = (char *)malloc(*room = 64)) == NULL) exit(2);
    (*line)[*length] = 0;
    return true;
}

int main(int many, char **arguments) {
    bool frames = many == 2 && strcmp(arguments[1], "frames") == 0;
    char *line = NULL;
    size_t room = 0, length;
    while (read_line(&line, &room, &length)) {
        if (frames) answer_frame(line, length);
        else answer(line);
        printf("\n");
    }
    free(line);
    return 0;
}
