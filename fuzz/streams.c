// Runs the program `sandline` on whole streams: streams SECONDS SEED COMMAND..
// COMMAND.. is what runs the program. A stream is made of frames, good and damaged, of bytes of any value, of empty
// lines, of lines that no buffer holds; it may end without a newline, come in pieces, or be none; and the output may be
// closed.
//
// Expected of each: the program ends, with status 0, within the time limit; and it answers line by line what document
// 01 says (frames.h), so as many lines as it was given. Where nobody reads the output, only that it ends so; a pipe
// that nobody reads may also end it by its signal, unless that is ignored.
#define _GNU_SOURCE
#include <errno.h>
#include <fcntl.h>
#include <poll.h>
#include <signal.h>
#include <sys/wait.h>
#include <time.h>

#include "frames.h"

#define LIMIT 60.0 // seconds for one stream
#define STREAM_MOST ((size_t)4 << 20)

static uint8_t *stream, *wanted, *got;
static size_t stream_length, wanted_length, wanted_room, lines;
static uint64_t seed, number; // the stream, so that it can be made again

static double now(void) {
    struct timespec t;
    clock_gettime(CLOCK_MONOTONIC, &t);
    return (double)t.tv_sec + (double)t.tv_nsec / 1e9;
}

// ---- a stream

// Draws of the stream's own: those of lent.h begin anew with each list.
static uint64_t chance;

static uint32_t any(uint32_t below) {
    uint64_t kept = drawn;
    drawn = chance;
    uint32_t a = draw() % below;
    chance = drawn, drawn = kept;
    return a;
}

static void add_byte(uint8_t b) {
    if (stream_length < STREAM_MOST) stream[stream_length++] = b;
}

static void add_line(void) {
    static uint8_t bytes[700], line[LINE_MOST + 8];
    size_t n = 8 + any(any(4) ? 60 : 600);
    for (size_t k = 0; k < n; k++) bytes[k] = (uint8_t)any(256);
    if (any(3) == 0) bytes[1] = (uint8_t)(64 + any(192)), bytes[0] = (uint8_t)(64 + any(192)); // mostly a frame
    input = bytes, input_left = n;
    size_t length = make_line(line);
    for (size_t k = 0; k < length; k++) add_byte(line[k]);
}

static void make_stream(void) {
    chance = seed * 1000003 + number;
    stream_length = 0;
    uint32_t kind = any(16), n = 1 + any(40);
    if (kind == 0) return;
    if (kind == 1) { // bytes of any value
        for (n = any(200000); n > 0; n--) add_byte((uint8_t)any(256));
    } else if (kind == 2) { // nothing but ends of lines
        for (n = any(20000); n > 0; n--) add_byte('\n');
    } else if (kind == 3) { // a line of over a megabyte, and a frame behind it
        uint8_t b = any(2) ? '0' : (uint8_t)any(256);
        for (n = (1 << 20) + any(1 << 20); n > 0; n--) add_byte(b);
        add_byte('\n');
        add_line();
    } else if (kind == 4) { // NUL bytes among the ends of lines
        for (n = any(100000); n > 0; n--) add_byte(any(500) ? 0 : '\n');
    } else if (kind == 5) { // many of the shortest answers
        for (n = any(9000); n > 0; n--)
            for (const char *c = "0101000100010000000080\n"; *c; c++) add_byte((uint8_t)*c);
    } else {
        for (; n > 0; n--) {
            add_line();
            if (kind == 6) add_byte('\r');
            add_byte('\n');
        }
    }
    if (stream_length && any(2)) stream_length--;                               // no newline at the end
    if (stream_length && any(4) == 0) stream_length = any((uint32_t)stream_length); // cut anywhere
    if (stream_length && any(4) == 0)
        for (n = 1 + any(8); n > 0; n--) stream[any((uint32_t)stream_length)] = (uint8_t)(any(3) ? any(256) : 0);
}

static void make_wanted(void) {
    wanted_length = lines = 0;
    for (size_t from = 0; from < stream_length;) {
        const uint8_t *end = memchr(stream + from, '\n', stream_length - from);
        size_t to = end ? (size_t)(end - stream) : stream_length;
        answer_line(stream + from, to - from);
        if (wanted_length + answer_length + 1 > wanted_room) {
            wanted_room = 2 * wanted_room + sizeof answer_text;
            wanted = realloc(wanted, wanted_room), got = realloc(got, wanted_room + 1);
            if (!wanted || !got) abort();
        }
        memcpy(wanted + wanted_length, answer_text, answer_length);
        wanted_length += answer_length;
        wanted[wanted_length++] = '\n';
        lines++, from = to + 1;
    }
}

// ---- a run of the program

static const char *const outputs[] = {"read to its end", "closed", "a full device", "a pipe that nobody reads"};
enum { READ, CLOSED, FULL, BROKEN };

static void stop(const char *what) {
    FILE *f = fopen("stream", "wb");
    if (f) fwrite(stream, 1, stream_length, f), fclose(f);
    fprintf(stderr, "stream %llu of seed %llu (%zu bytes, put in the file `stream`): %s\n", (unsigned long long)number,
            (unsigned long long)seed, stream_length, what);
    exit(1);
}

// Starts the program; ends of pipes in `to` and `from`, -1 where there is none.
static pid_t start(char **command, int output, bool ignores, int *to, int *from) {
    int in[2], out[2];
    if (pipe2(in, O_CLOEXEC) != 0 || pipe2(out, O_CLOEXEC) != 0) abort();
    pid_t child = fork();
    if (child < 0) abort();
    if (child == 0) {
        signal(SIGPIPE, ignores ? SIG_IGN : SIG_DFL);
        dup2(in[0], 0);
        if (output == CLOSED) close(1);
        else dup2(output == FULL ? open("/dev/full", O_WRONLY) : out[1], 1);
        if (output == BROKEN) close(out[0]), close(out[1]);
        execvp(command[0], command);
        _exit(127);
    }
    close(in[0]), close(out[1]);
    *to = in[1], *from = out[0];
    fcntl(*to, F_SETFL, O_NONBLOCK), fcntl(*from, F_SETFL, O_NONBLOCK);
    if (output != READ) close(*from), *from = -1;
    return child;
}

// Feeds the stream, in pieces of some size, and reads what comes back, until both are at their end; how many bytes
// came.
static size_t feed(pid_t child, int to, int from, double until) {
    size_t fed = 0, read_bytes = 0, piece = any(3) ? 65536 : 1 + any(5000);
    while (to >= 0 || from >= 0) {
        if (to >= 0 && fed == stream_length) close(to), to = -1;
        struct pollfd ends[2] = {{to, POLLOUT, 0}, {from, POLLIN, 0}};
        poll(ends, 2, 1000);
        if (now() > until) {
            kill(child, SIGKILL);
            stop("does not end");
        }
        if (to >= 0 && ends[0].revents) {
            ssize_t n = write(to, stream + fed, stream_length - fed < piece ? stream_length - fed : piece);
            if (n > 0) fed += (size_t)n;
            else if (n < 0 && errno != EAGAIN) close(to), to = -1; // it reads no more
        }
        if (from >= 0 && ends[1].revents) {
            ssize_t n = read(from, got + read_bytes, wanted_length + 1 - read_bytes);
            if (n > 0) read_bytes += (size_t)n;
            else if (n == 0 || errno != EAGAIN) close(from), from = -1;
            if (read_bytes > wanted_length) {
                kill(child, SIGKILL);
                stop("more is answered than was asked");
            }
        }
    }
    return read_bytes;
}

static void run_stream(char **command, int output) {
    int to, from, status;
    bool ignores = any(2);
    double until = now() + LIMIT;
    pid_t child = start(command, output, ignores, &to, &from);
    size_t bytes = feed(child, to, from, until);
    while (waitpid(child, &status, WNOHANG) == 0) {
        if (now() > until) {
            kill(child, SIGKILL);
            stop("does not end");
        }
        usleep(1000);
    }
    bool piped = output == BROKEN && !ignores && WIFSIGNALED(status) && WTERMSIG(status) == SIGPIPE;
    if (!piped && !(WIFEXITED(status) && WEXITSTATUS(status) == 0)) stop("ends with another status than 0");
    if (output == READ && (bytes != wanted_length || memcmp(got, wanted, bytes) != 0)) stop("answers something else");
}

int main(int words, char **word_list) {
    if (words < 4) return fprintf(stderr, "usage: streams SECONDS SEED COMMAND..\n"), 2;
    double until = now() + atof(word_list[1]), slowest = 0;
    uint64_t counts[4] = {0}, all_lines = 0, all_bytes = 0;
    seed = strtoull(word_list[2], NULL, 10);
    signal(SIGPIPE, SIG_IGN);
    stream = malloc(STREAM_MOST);
    wanted_room = sizeof answer_text;
    wanted = malloc(wanted_room), got = malloc(wanted_room + 1);
    if (!stream || !wanted || !got) abort();
    for (number = 0; now() < until; number++) {
        make_stream();
        make_wanted();
        uint32_t output = any(16);
        if (output >= 4) output = READ;
        double began = now();
        run_stream(word_list + 3, (int)output);
        if (now() - began > slowest) slowest = now() - began;
        counts[output]++, all_bytes += stream_length;
        if (output == READ) all_lines += lines;
    }
    for (int k = 0; k < 4; k++)
        printf("streams whose output was %s: %llu\n", outputs[k], (unsigned long long)counts[k]);
    printf("streams: %llu, %llu bytes, %llu lines answered, slowest %.1f s\n", (unsigned long long)number,
           (unsigned long long)all_bytes, (unsigned long long)all_lines, slowest);
    return 0;
}
