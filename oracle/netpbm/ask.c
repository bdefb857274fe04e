/* Asks netpbm's own library to read and to write pictures: one question a line on standard input, one answer a line.
 *
 * `read FILE`: how wide and high the image at the front of the file is, how many bytes it took, and its rows, each
 * padded with zeros to whole bytes; or `refused`. `write W H ROWS`: the file that the library writes.
 * FILE, ROWS and the answers are hexadecimal, `-` for no bytes.
 *
 * What is used of the library is declared here as its headers pm.h and pbm.h declare it, so that they need not be
 * installed. */
#include <setjmp.h>
#include <stdio.h>
#include <stdlib.h>
#include <string.h>

void pm_init(const char *name, unsigned int flags);
void pm_setjmpbuf(jmp_buf *buffer);
void pm_setusererrormsgfn(void (*say)(const char *));
void pm_setusermessagefn(void (*say)(const char *));
void pbm_readpbminit(FILE *file, int *columns, int *rows, int *format);
void pbm_readpbmrow(FILE *file, unsigned char *row, int columns, int format);
void pbm_writepbminit(FILE *file, int columns, int rows, int plain);
void pbm_writepbmrow(FILE *file, const unsigned char *row, int columns, int plain);

static void fail(const char *what) {
    fprintf(stderr, "netpbm: %s\n", what);
    exit(2);
}

static void *room(size_t bytes) {
    void *place = calloc(bytes + 1, 1);
    if (place == NULL) fail("no memory");
    return place;
}

static void say_nothing(const char *message) { (void)message; }

static void put_bytes(const unsigned char *bytes, size_t count) {
    if (count == 0) putchar('-');
    for (size_t i = 0; i < count; i++) printf("%02x", bytes[i]);
}

static unsigned digit(char c) { return c <= '9' ? c - '0' : c - 'a' + 10; }

/* Turns a word into the bytes that it says, in their place, and answers how many they are. */
static size_t bytes_of(char *word) {
    size_t count = word[0] == '-' ? 0 : strlen(word) / 2;
    for (size_t i = 0; i < count; i++) word[i] = (char)(digit(word[2 * i]) * 16 + digit(word[2 * i + 1]));
    return count;
}

/* A picture as far as it is read. */
struct picture {
    int width, height, format;
    size_t row_bytes;
    unsigned char *row, *rows;
};

/* Reads the picture, or leaves by the library's jump. Rows of no pixels are not read: they have no bytes. */
static void read_picture(FILE *file, size_t bytes, struct picture *it) {
    pbm_readpbminit(file, &it->width, &it->height, &it->format);
    it->row_bytes = ((size_t)it->width + 7) / 8;
    it->row = room(it->width);
    it->rows = room(bytes);
    for (int y = 0; it->width > 0 && y < it->height; y++) {
        pbm_readpbmrow(file, it->row, it->width, it->format);
        /* A row that was read took a byte for eight pixels at the least, so that all have room. */
        for (int x = 0; x < it->width; x++)
            it->rows[y * it->row_bytes + x / 8] |= it->row[x] << (7 - x % 8);
    }
}

static void answer_read(char *word) {
    size_t bytes = bytes_of(word);
    FILE *file = fmemopen(word, bytes, "rb");
    static struct picture it;
    jmp_buf refused;
    if (file == NULL) fail("no file in memory");
    it.row = it.rows = NULL;
    if (setjmp(refused) == 0) {
        pm_setjmpbuf(&refused);
        read_picture(file, bytes, &it);
        printf("%d %d %ld ", it.width, it.height, ftell(file));
        put_bytes(it.rows, it.row_bytes * it.height);
    } else {
        printf("refused");
    }
    pm_setjmpbuf(NULL);
    free(it.row);
    free(it.rows);
    fclose(file);
}

static void answer_write(int width, int height, char *word) {
    char *text;
    size_t length, row_bytes = ((size_t)width + 7) / 8;
    unsigned char *row = room(width);
    FILE *file = open_memstream(&text, &length);
    if (file == NULL) fail("no file in memory");
    if (bytes_of(word) < row_bytes * height) fail("rows are missing");
    pbm_writepbminit(file, width, height, 0);
    for (int y = 0; y < height; y++) {
        for (int x = 0; x < width; x++) row[x] = (unsigned char)word[y * row_bytes + x / 8] >> (7 - x % 8) & 1;
        pbm_writepbmrow(file, row, width, 0);
    }
    fclose(file);
    put_bytes((unsigned char *)text, length);
    free(text);
    free(row);
}

int main(void) {
    char *line = NULL;
    size_t size = 0;
    ssize_t length;
    pm_init("netpbm", 0);
    pm_setusererrormsgfn(say_nothing);
    pm_setusermessagefn(say_nothing);
    while ((length = getline(&line, &size, stdin)) > 0) {
        char *rest;
        line[strcspn(line, "\n")] = 0;
        if (strncmp(line, "read ", 5) == 0) {
            answer_read(line + 5);
        } else if (strncmp(line, "write ", 6) == 0) {
            int width = (int)strtol(line + 6, &rest, 10);
            int height = (int)strtol(rest, &rest, 10);
            answer_write(width, height, rest + 1);
        } else {
            fail("what is asked?");
        }
        putchar('\n');
        fflush(stdout);
    }
    return 0;
}
