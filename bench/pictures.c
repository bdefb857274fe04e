// Our calls on pictures beside netpbm's own, on the coast of src/lists.rs, 512 by 512: read raw, read plain as netpbm
// writes it, written raw. bench/pictures calls it:
//
//     pictures time    holds both sides' charts and files against each other, and prints a line for each part:
//                      what it does, whose it is, how many bytes the file has, seconds
//     pictures count   the same parts in the same order, for callgrind
//
// Netpbm reads and writes a stream of the C library, here one in memory, which is opened before anything is measured.
// Its calls that keep eight pixels in a byte are taken, as a chart does. What is used of the library is declared here
// as its headers declare it, so that they need not be installed.
#include <stdio.h>
#include <stdlib.h>
#include <string.h>

#include "sandline.h"

void pm_init(const char *name, unsigned int flags);
void pbm_readpbminit(FILE *file, int *columns, int *rows, int *format);
void pbm_readpbmrow_packed(FILE *file, unsigned char *row, int columns, int format);
void pbm_writepbminit(FILE *file, int columns, int rows, int plain);
void pbm_writepbmrow_packed(FILE *file, const unsigned char *row, int columns, int plain);

void count_from_here(void);
void count_to_here(void);
double own_seconds(void);

enum { SIDE = 512, ROW = SIDE / 8, CHART = ROW * SIDE, FILE_MOST = 2 * SIDE * SIDE };

static unsigned char chart[CHART];

// What a part works on: a file, the stream over it, and the chart that is read from it.
static unsigned char file[FILE_MOST], read_chart[CHART];
static size_t file_bytes;
static FILE *stream;

static void expect(int right, const char *what) {
    if (right) return;
    fprintf(stderr, "pictures: %s\n", what);
    exit(1);
}

// A ragged island, as in src/lists.rs.
static void draw_coast(void) {
    for (int y = 0; y < SIDE; y++)
        for (int x = 0; x < SIDE; x++) {
            int dx = 2 * x - (SIDE - 1), dy = 2 * y - (SIDE - 1);
            if (dx * dx + dy * dy + (7 * x + 13 * y) % 11 * 150 < SIDE * SIDE)
                chart[y * ROW + x / 8] |= (unsigned char)(0x80 >> x % 8);
        }
}

static FILE *open_file(const char *mode) {
    FILE *opened = fmemopen(file, *mode == 'r' ? file_bytes : FILE_MOST, mode);
    expect(opened != NULL, "no file in memory");
    return opened;
}

static void write_by_netpbm(FILE *to, int plain) {
    pbm_writepbminit(to, SIDE, SIDE, plain);
    for (int y = 0; y < SIDE; y++) pbm_writepbmrow_packed(to, chart + y * ROW, SIDE, plain);
    fflush(to);
}

// Has netpbm write the coast into the file.
static void make_file(int plain) {
    FILE *to = open_file("wb");
    write_by_netpbm(to, plain);
    file_bytes = (size_t)ftell(to);
    fclose(to);
}

// ---- the parts

static void read_ours(void) {
    size_t width, height, bytes;
    uint8_t number = sandline_read_pbm(file, file_bytes, read_chart, sizeof read_chart, &width, &height, &bytes);
    expect(number == SANDLINE_DONE && width == SIDE && height == SIDE && bytes <= file_bytes, "another picture");
}

static void read_netpbm(void) {
    int width, height, format;
    pbm_readpbminit(stream, &width, &height, &format);
    expect(width == SIDE && height == SIDE, "another picture");
    for (int y = 0; y < SIDE; y++) pbm_readpbmrow_packed(stream, read_chart + y * ROW, SIDE, format);
}

static void write_ours(void) {
    uint8_t number = sandline_write_pbm(SIDE, SIDE, chart, sizeof chart, file, sizeof file, &file_bytes);
    expect(number == SANDLINE_DONE, "not written");
}

static void write_netpbm(void) {
    write_by_netpbm(stream, 0);
}

static const struct {
    const char *what, *whose, *mode;
    int plain;
    void (*run)(void);
} parts[] = {
    {"read, raw", "ours", "rb", 0, read_ours},   {"read, raw", "netpbm", "rb", 0, read_netpbm},
    {"read, plain", "ours", "rb", 1, read_ours}, {"read, plain", "netpbm", "rb", 1, read_netpbm},
    {"write, raw", "ours", "wb", 0, write_ours}, {"write, raw", "netpbm", "wb", 0, write_netpbm},
};

// Seconds of a run, the least of nine samples of some milliseconds.
static double seconds(void (*run)(void)) {
    enum { RUNS = 50 };
    double least = 1e9;
    for (int k = 0; k < 9; k++) {
        double from = own_seconds();
        for (int n = 0; n < RUNS; n++) {
            rewind(stream);
            run();
        }
        double each = (own_seconds() - from) / RUNS;
        if (each < least) least = each;
    }
    return least;
}

// What a run has left: the coast, or the file that netpbm wrote of it.
static void expect_done(const char *mode) {
    static unsigned char expected[FILE_MOST];
    if (*mode == 'r') {
        expect(memcmp(read_chart, chart, sizeof chart) == 0, "another chart");
        return;
    }
    size_t bytes = file_bytes;
    memcpy(expected, file, bytes);
    make_file(0);
    expect(bytes == file_bytes && memcmp(expected, file, bytes) == 0, "another file");
}

int main(int words, char **word) {
    int count = words == 2 && strcmp(word[1], "count") == 0;
    pm_init("pictures", 0);
    draw_coast();
    for (size_t k = 0; k < sizeof parts / sizeof *parts; k++) {
        make_file(parts[k].plain);
        memset(read_chart, 0, sizeof read_chart);
        stream = open_file(parts[k].mode);
        parts[k].run();
        expect_done(parts[k].mode);
        rewind(stream);
        if (count) {
            count_from_here();
            parts[k].run();
            count_to_here();
        } else {
            printf("%s\t%s\t%zu\t%e\n", parts[k].what, parts[k].whose, file_bytes, seconds(parts[k].run));
        }
        fclose(stream);
    }
    return 0;
}
