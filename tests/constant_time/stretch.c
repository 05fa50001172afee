#include "stretch.h"
#include <string.h>

/* stretch_switch(top, call, arguments, processor): the call with its stack at top. No register holds anything of the
 * program's own by then but the arguments and what is needed to come back. */
__asm__(".text\n"
        ".type stretch_switch, @function\n"
        "stretch_switch:\n"
        "  push %rbx\n  push %rbp\n  push %r12\n  push %r13\n  push %r14\n  push %r15\n"
        "  mov %rsp, %rbx\n"
        "  mov %rcx, %rbp\n"
        "  mov %rdi, %rsp\n"
        "  mov %rsi, %rax\n"
        "  mov %rdx, %r10\n"
        "  mov 0(%r10), %rdi\n  mov 8(%r10), %rsi\n  mov 16(%r10), %rdx\n"
        "  mov 24(%r10), %rcx\n  mov 32(%r10), %r8\n  mov 40(%r10), %r9\n"
        "  xor %r10d, %r10d\n  xor %r11d, %r11d\n  xor %r12d, %r12d\n"
        "  xor %r13d, %r13d\n  xor %r14d, %r14d\n  xor %r15d, %r15d\n"
        "  pxor %xmm0, %xmm0\n  pxor %xmm1, %xmm1\n  pxor %xmm2, %xmm2\n  pxor %xmm3, %xmm3\n"
        "  pxor %xmm4, %xmm4\n  pxor %xmm5, %xmm5\n  pxor %xmm6, %xmm6\n  pxor %xmm7, %xmm7\n"
        "  pxor %xmm8, %xmm8\n  pxor %xmm9, %xmm9\n  pxor %xmm10, %xmm10\n  pxor %xmm11, %xmm11\n"
        "  pxor %xmm12, %xmm12\n  pxor %xmm13, %xmm13\n  pxor %xmm14, %xmm14\n  pxor %xmm15, %xmm15\n"
        "  call *%rax\n"
        "  mov %rbx, %rsp\n"
        "  mov %rax, 0(%rbp)\n  mov %rcx, 8(%rbp)\n  mov %rdx, 16(%rbp)\n  mov %rsi, 24(%rbp)\n"
        "  mov %rdi, 32(%rbp)\n  mov %r8, 40(%rbp)\n  mov %r9, 48(%rbp)\n  mov %r10, 56(%rbp)\n"
        "  mov %r11, 64(%rbp)\n"
        "  movups %xmm0, 72(%rbp)\n  movups %xmm1, 88(%rbp)\n  movups %xmm2, 104(%rbp)\n"
        "  movups %xmm3, 120(%rbp)\n  movups %xmm4, 136(%rbp)\n  movups %xmm5, 152(%rbp)\n"
        "  movups %xmm6, 168(%rbp)\n  movups %xmm7, 184(%rbp)\n  movups %xmm8, 200(%rbp)\n"
        "  movups %xmm9, 216(%rbp)\n  movups %xmm10, 232(%rbp)\n  movups %xmm11, 248(%rbp)\n"
        "  movups %xmm12, 264(%rbp)\n  movups %xmm13, 280(%rbp)\n  movups %xmm14, 296(%rbp)\n"
        "  movups %xmm15, 312(%rbp)\n"
        "  pop %r15\n  pop %r14\n  pop %r13\n  pop %r12\n  pop %rbp\n  pop %rbx\n"
        "  ret\n"
        ".size stretch_switch, . - stretch_switch\n");

void stretch_switch(uint8_t *top, stretch_call *call, const uint64_t arguments[6], struct processor *processor);

static uint8_t stack[STRETCH] __attribute__((aligned(64)));

void stretch(stretch_call *call, const uint64_t arguments[6], struct left *left)
{
    memset(stack, PAINT, STRETCH);
    stretch_switch(stack + STRETCH, call, arguments, &left->processor);
    memcpy(left->stack, stack, STRETCH);
    left->answer = (uint32_t)left->processor.scratch[0];
}

size_t stretch_used(const struct left *left)
{
    size_t at = 0;

    while (at < STRETCH && left->stack[at] == PAINT)
        at++;
    return STRETCH - at;
}
