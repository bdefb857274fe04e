// The square root from an interrupt that has 512 bytes of stack. guide/interrupt compiles it over the archive and runs
// it in an emulator. It prints how much of that stack the calls take, and ends with 1, and says why, where a byte past
// it is touched or a root is another than the C library's.
//
// All else runs on another stack, as under an operating system: so what the interrupt finds is 512 bytes and nothing
// in them. (Where both share one, the processor itself puts 32 bytes there first, or 104 with the registers of a
// floating point unit.)
#include <math.h>
#include <stdio.h>
#include <stdlib.h>
#include <string.h>

#include "sandline.h"

// ---- The interrupt's stack, painted, and so is what lies past it. A stack grows downwards.

enum { ROOM = 512, PAST = 2048, WORDS = (PAST + ROOM) / 4, PAINT = 0x5a5aa5a5 };
static volatile uint32_t stack[WORDS] __attribute__((aligned(8)));

static void paint(void) {
    for (int k = 0; k < WORDS; k++) stack[k] = PAINT;
}

// Bytes down to the last one that is no longer as painted.
static int used(void) {
    int k = 0;
    while (k < WORDS && stack[k] == PAINT) k++;
    return 4 * (WORDS - k);
}

// ---- The interrupt.

typedef void (*handler)(void);

// What it is handed, and what it answers.
static volatile double number, root;
static volatile uint64_t bits, root_bits;

static void on_number(void) {
    root = sandline_sqrt(number);
}

static void on_bits(void) {
    root_bits = sandline_sqrt_bits(bits);
}

// One that takes more than there is: it must be seen.
static void greedy(void) {
    uint8_t much[ROOM + 16];
    memset(much, 1, sizeof much);
    __asm__ volatile("" : : "r"(much) : "memory");
}

static void fail(const char *what) {
    printf("guide/interrupt: %s\n", what);
    exit(1);
}

static void fault(void) {
    fail("a fault");
}

enum { PENDING = 14 };
static handler vectors[16] __attribute__((aligned(128)));
#define INTERRUPT_CONTROL (*(volatile uint32_t *)0xe000ed04)
#define VECTOR_TABLE (*(volatile uint32_t *)0xe000ed08)

// From here on the program's own stack is that of a task, and interrupts have the painted one.
static void set_up(void) {
    for (int k = 0; k < 16; k++) vectors[k] = fault;
    VECTOR_TABLE = (uint32_t)vectors;
    __asm__ volatile("mrs r3, msp\n msr psp, r3\n movs r3, #2\n msr control, r3\n isb\n msr msp, %0"
                     :
                     : "r"(stack + WORDS)
                     : "r3", "memory");
}

static void interrupt(handler with) {
    vectors[PENDING] = with;
    __asm__ volatile("dsb" ::: "memory");
    INTERRUPT_CONTROL = 1u << 28;
    __asm__ volatile("dsb\n isb" ::: "memory");
}

// ---- What it is asked.

// The generator of all random choices: splitmix64.
static uint64_t next(void) {
    static uint64_t state = 1;
    state += 0x9e3779b97f4a7c15;
    uint64_t z = state;
    z = (z ^ (z >> 30)) * 0xbf58476d1ce4e5b9;
    z = (z ^ (z >> 27)) * 0x94d049bb133111eb;
    return z ^ (z >> 31);
}

// Zeros, the least and the greatest of each kind, infinities and NaNs; then any pattern, of which every fourth is that
// of a subnormal double and the others' sign is clear but for every eighth.
static uint64_t pattern(int k) {
    static const uint64_t edges[] = {0, 1, 2, 0xfffffffffffff, 0x10000000000000, 0x3ff0000000000000, 0x4000000000000000,
                                     0x7fefffffffffffff, 0x7ff0000000000000, 0x7ff0000000000001, 0x7ff8000000000000};
    enum { EDGES = sizeof edges / sizeof *edges };
    if (k < 2 * EDGES) return edges[k / 2] | (uint64_t)(k % 2) << 63;
    uint64_t any = next();
    return k % 4 == 0 ? any >> 12 : k % 8 == 1 ? any : any >> 1;
}

// The root by the C library, its NaN as document 01 has it.
static uint64_t expected(double x) {
    uint64_t said = 0x7ff8000000000000;
    double r = sqrt(x);
    if (!isnan(r)) memcpy(&said, &r, sizeof said);
    return said;
}

enum { COUNT = 20000 };

static void report(const char *call) {
    int bytes = used();
    if (bytes > ROOM) fail("a byte past the stack is touched");
    printf("%s in an interrupt: %d of %d bytes of stack, all else as painted; %d roots as the C library has them\n", call,
           bytes, ROOM, COUNT);
}

int main(void) {
    set_up();

    paint();
    interrupt(greedy);
    if (used() <= ROOM) fail("what is past the stack was touched, and is not seen");

    paint();
    for (int k = 0; k < COUNT; k++) {
        uint64_t asked = pattern(k), answered;
        double x, r;
        memcpy(&x, &asked, sizeof x);
        number = x;
        interrupt(on_number);
        r = root;
        memcpy(&answered, &r, sizeof answered);
        if (isnan(r) ? expected(x) != 0x7ff8000000000000 : answered != expected(x)) fail("another root");
    }
    report("sandline_sqrt");

    paint();
    for (int k = 0; k < COUNT; k++) {
        double x;
        bits = pattern(k);
        uint64_t asked = bits;
        memcpy(&x, &asked, sizeof x);
        interrupt(on_bits);
        if (root_bits != expected(x)) fail("another root");
    }
    report("sandline_sqrt_bits");
    return 0;
}
