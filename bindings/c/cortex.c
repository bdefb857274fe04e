// What a program of C needs besides on an emulated Cortex-M (calls.c, cases.c, bench/guide.c): a vector table, by which
// the processor begins with the C library's own start. The linker puts it at 0 (`cross` in tools/common.sh).
//
// A Cortex-M0+ has no words that are not aligned, but the emulated one would let them pass: so they are made a fault.
#include <stdint.h>

extern char __stack[];
extern void _start(void);

__attribute__((section(".vectors"), used)) static const struct {
    char *stack;
    void (*start)(void);
} vectors = {__stack, _start};

#ifdef __ARM_ARCH_6M__
#define CONFIGURATION (*(volatile uint32_t *)0xe000ed14)
#define UNALIGNED_IS_A_FAULT 8

__attribute__((constructor)) static void only_aligned_words(void) {
    CONFIGURATION |= UNALIGNED_IS_A_FAULT;
}
#endif
