// Which of the library's edges a run has reached, in the order of its counters (the drivers themselves have none).
#ifndef EDGES_H
#define EDGES_H

#include <stdint.h>
#include <stdio.h>

extern uint8_t __start___sancov_cntrs[], __stop___sancov_cntrs[];

static uint8_t reached[1 << 16];

// After an input.
static void note_edges(void) {
    size_t n = (size_t)(__stop___sancov_cntrs - __start___sancov_cntrs);
    for (size_t k = 0; k < n && k < sizeof reached; k++) reached[k] |= __start___sancov_cntrs[k] != 0;
}

// At the end: a 1 for each that was reached, and a 0 for each that was not.
static void print_edges(void) {
    size_t n = (size_t)(__stop___sancov_cntrs - __start___sancov_cntrs);
    printf("edges ");
    for (size_t k = 0; k < n && k < sizeof reached; k++) putchar(reached[k] ? '1' : '0');
    printf("\n");
}

#endif
