// What the program needs of the board that it runs on. Of a real guide another board.c would say it.
#ifndef BOARD_H
#define BOARD_H

#include <stddef.h>
#include <stdint.h>

// Text to whoever watches.
void say(const char *text);
void say_number(uint64_t number);

// A file beside the emulator, of so many bytes.
void save(const char *name, const uint8_t *bytes, size_t length);

// Ends the program: 0 if all went well.
__attribute__((noreturn)) void end(int status);

// The time, and the instructions since then: in steps of 40, and up to 171 thousand million.
uint32_t now(void);
uint64_t instructions_since(uint32_t time);

// Paints what is free of the stack. Bytes of it that are in use or have been since it was painted, as far down as any
// call went; and bytes in all.
void paint_stack(void);
size_t stack_used(void);
size_t stack_room(void);

// Bytes of the 256 KiB that are neither buffer nor stack.
size_t memory_left(void);

#endif
