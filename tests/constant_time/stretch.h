/* A call on a stack of its own, which is painted before, with what it leaves on it and in the registers of the
 * processor. x86-64. */
#ifndef STRETCH_H
#define STRETCH_H

#include <stddef.h>
#include <stdint.h>

enum { STRETCH = 65536, PAINT = 0xc5, SCRATCH = 9, VECTORS = 16 };

/* The registers that a call need not keep: rax rcx rdx rsi rdi r8 r9 r10 r11, and xmm0 to xmm15. */
struct processor {
    uint64_t scratch[SCRATCH];
    uint8_t vectors[VECTORS][16];
};

/* What a call left behind. */
struct left {
    uint32_t answer;
    uint8_t stack[STRETCH];
    struct processor processor;
};

/* Calls one of the two functions of six arguments. */
typedef uint32_t stretch_call(const uint8_t *key, size_t key_n, const uint8_t *from, size_t from_n, uint8_t *out,
                              size_t out_n);
void stretch(stretch_call *call, const uint64_t arguments[6], struct left *left);

/* The octets of the stack that were written, the return address among them. */
size_t stretch_used(const struct left *left);

#endif
