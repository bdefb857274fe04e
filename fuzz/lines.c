// A driver for libFuzzer: an input is a line for sandline_answer, which is the whole of what the program `sandline`
// does with one. The line is the input itself, or its bytes as digits, or a frame made of it, damaged at times.
//
// Held against document 01 (lent.h makes each call twice, between pages that cannot be touched): the answer is the one
// of its "Frames", digit by digit (frames.h); it is written where it fits, and then the places around it hold what
// they held; else nothing is written, and the place itself is returned.
#include "edges.h"
#include "frames.h"

static lent *line, *out;
static size_t room, at;

static uint64_t call_answer(void) {
    return sandline_answer(line->at, line->bytes, out->at, room, at);
}

static uint64_t tally[256][12]; // by kind and number

static void print_tally(void) {
    uint64_t all = 0;
    for (int kind = 0; kind < 256; kind++) {
        bool any = false;
        for (int n = 0; n < 12; n++) {
            if (tally[kind][n] == 0) continue;
            if (!any) printf("answer %02x", kind);
            any = true, all += tally[kind][n];
            printf(" %d:%llu", n, (unsigned long long)tally[kind][n]);
        }
        if (any) printf("\n");
    }
    printf("lines: %llu\n", (unsigned long long)all);
}

int LLVMFuzzerInitialize(int *argc, char ***argv) {
    (void)argc, (void)argv;
    atexit(print_tally), atexit(print_edges);
    return 0;
}

static void lend_room(size_t r) {
    room = r;
    out->bytes = r;
    memset(out->held, MARK, r);
}

// The answer stands at its place, and nothing else is written.
static void expect_answer(void) {
    expect(make(call_answer) == at + answer_length, "the place behind the answer is another");
    expect(memcmp(out->left + at, answer_text, answer_length) == 0, "the answer is another");
    expect(memcmp(out->left, out->held, at) == 0 && is_old_from(out, at + answer_length),
           "a place beside it is written");
}

static void expect_nothing(void) {
    expect(make(call_answer) == at, "an answer that does not fit is not refused");
    expect(is_old_from(out, 0), "an answer that does not fit is written");
}

int LLVMFuzzerTestOneInput(const uint8_t *data, size_t length) {
    static const size_t far[] = {SIZE_MAX, SIZE_MAX - 7, SIZE_MAX - 8, (size_t)1 << 63, (size_t)1 << 32};
    input = data, input_left = length;
    doing = "sandline_answer";
    lend_nothing();
    line = lend(0, false), out = lend(0, true);
    uint8_t how = byte();
    line->bytes = make_line(line->held);
    answer_line(line->held, line->bytes);
    tally[digit((uint8_t)answer_text[0]) << 4 | digit((uint8_t)answer_text[1])]
         [digit((uint8_t)answer_text[2]) << 4 | digit((uint8_t)answer_text[3])]++;
    at = 0;
    lend_room(answer_length + how % 64);
    expect_answer();
    at = how % 100;
    switch (how / 100) {
    case 0: // just enough room
        lend_room(at + answer_length);
        expect_answer();
        break;
    case 1: // one place too few
        lend_room(at + answer_length - 1);
        expect_nothing();
        break;
    default: // a place that is not there
        lend_room(how % 3 ? answer_length : 0);
        at = how % 2 ? answer_length + how % 7 : far[how / 2 % 5];
        expect_nothing();
    }
    note_edges();
    return 0;
}
