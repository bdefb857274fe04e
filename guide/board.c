// The emulated board: an Arm MPS2 of QEMU's, with a Cortex-M4 or a Cortex-M3. Output goes by semihosting.
#include "board.h"

// Of memory.ld: where things stand.
extern uint32_t stack_bottom[], stack_top[], fault_stack_top[];
extern uint32_t data_image[], data_start[], data_end[], bss_start[], bss_end[];
extern char bytes_left[]; // a number, as an address

int main(void);
void reset(void);
void fault(void);

// Where the processor begins, and where it goes on when an instruction cannot be done.
__attribute__((section(".vectors"), used)) static const struct {
    uint32_t *stack;
    void (*reset)(void);
    void (*faults[5])(void); // not maskable, hard, of memory, of the bus, of use
} vectors = {fault_stack_top, reset, {fault, fault, fault, fault, fault}};

// ---- semihosting

enum { OPEN = 0x01, CLOSE = 0x02, WRITE_TEXT = 0x04, WRITE = 0x05, EXIT = 0x20 };

static int ask(int operation, const void *argument) {
    register int r0 __asm__("r0") = operation;
    register const void *r1 __asm__("r1") = argument;
    __asm__ volatile("bkpt 0xab" : "+r"(r0) : "r"(r1) : "memory");
    return r0;
}

void say(const char *text) {
    ask(WRITE_TEXT, text);
}

void say_number(uint64_t number) {
    char digits[21];
    size_t at = sizeof digits - 1;
    digits[at] = 0;
    do {
        digits[--at] = (char)('0' + number % 10);
        number /= 10;
    } while (number > 0);
    say(digits + at);
}

static size_t length_of(const char *text) {
    size_t length = 0;
    while (text[length]) length++;
    return length;
}

void save(const char *name, const uint8_t *bytes, size_t length) {
    const uintptr_t opened[] = {(uintptr_t)name, 5, length_of(name)}; // 5: "wb"
    const int file = ask(OPEN, opened);
    const uintptr_t written[] = {(uintptr_t)file, (uintptr_t)bytes, length};
    const uintptr_t closed[] = {(uintptr_t)file};
    if (file == -1 || ask(WRITE, written) != 0 || ask(CLOSE, closed) != 0) {
        say("guide: a file cannot be written\n");
        end(1);
    }
}

void end(int status) {
    const uintptr_t ended[] = {0x20026, (uintptr_t)status}; // the program ended of itself
    ask(EXIT, ended);
    for (;;) continue;
}

// ---- the clock: a timer of the board's, which counts down 32 bits, one in 40 instructions

#define TIMER_CONTROL (*(volatile uint32_t *)0x40000000)
#define TIMER_NOW (*(volatile uint32_t *)0x40000004)
#define TIMER_RELOAD (*(volatile uint32_t *)0x40000008)

static void start_clock(void) {
    TIMER_RELOAD = UINT32_MAX;
    TIMER_NOW = UINT32_MAX;
    TIMER_CONTROL = 1;
}

uint32_t now(void) {
    return UINT32_MAX - TIMER_NOW;
}

uint64_t instructions_since(uint32_t time) {
    return (uint64_t)40 * (now() - time);
}

// ---- the stack

enum { PAINT = 0x5a5aa5a5 };

// What lies under this call's own few words is free.
void paint_stack(void) {
    uint32_t *const free_to = (uint32_t *)__builtin_frame_address(0) - 16;
    for (uint32_t *to = stack_bottom; to < free_to; to++) *to = PAINT;
}

size_t stack_room(void) {
    return (size_t)((char *)stack_top - (char *)stack_bottom);
}

size_t stack_used(void) {
    const uint32_t *at = stack_bottom;
    while (at < stack_top && *at == PAINT) at++;
    return (size_t)((char *)stack_top - (char *)at);
}

size_t memory_left(void) {
    return (size_t)bytes_left;
}

// Memory as C has it, and main on the stack that is meant for it. This one runs on the stack for faults.
void reset(void) {
    const uint32_t *from = data_image;
    for (uint32_t *to = data_start; to < data_end; to++) *to = *from++;
    for (uint32_t *to = bss_start; to < bss_end; to++) *to = 0;
    start_clock();
    __asm__ volatile("msr psp, %0\n\tmsr control, %1\n\tisb" : : "r"(stack_top), "r"(2) : "memory");
    end(main());
}

// An instruction that cannot be done. The library has none, and takes no more stack than is said of its calls: so the
// stack of memory.ld is too short, or the guide's own code is wrong.
void fault(void) {
    uintptr_t stack;
    __asm__ volatile("mrs %0, psp" : "=r"(stack));
    say(stack < (uintptr_t)stack_bottom + 1024 ? "guide: the stack is full\n" : "guide: a fault\n");
    end(3);
}

// ---- what the library asks of C

void *memset(void *memory, int value, size_t length) {
    uint8_t *at = (uint8_t *)memory;
    const uint32_t word = 0x01010101u * (uint8_t)value;
    for (; length > 0 && ((uintptr_t)at & 3) != 0; length--) *at++ = (uint8_t)value;
    for (; length >= 4; length -= 4, at += 4) *(uint32_t *)(void *)at = word;
    for (; length > 0; length--) *at++ = (uint8_t)value;
    return memory;
}
