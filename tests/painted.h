/* How much stack a function takes: it runs on a stack of its own that was
 * painted before, and the lowest place with another value shows how far down it
 * went. x86-64. */
#ifndef PAINTED_H
#define PAINTED_H

#include <stddef.h>
#include <stdint.h>
#include <string.h>

enum { PAINTED_BYTES = 1 << 18, PAINT = 0xA5 };

static _Alignas(64) uint8_t painted[PAINTED_BYTES];

/* Runs `function` on the painted stack. */
static void run_there(void (*function)(void))
{
    __asm__ volatile("movq %%rsp, %%rbx\n\t"
                     "movq %0, %%rsp\n\t"
                     "callq *%1\n\t"
                     "movq %%rbx, %%rsp"
                     :
                     : "r"(painted + PAINTED_BYTES), "r"(function)
                     : "rax", "rbx", "rcx", "rdx", "rsi", "rdi", "r8", "r9",
                       "r10", "r11", "xmm0", "xmm1", "xmm2", "xmm3", "xmm4",
                       "xmm5", "xmm6", "xmm7", "xmm8", "xmm9", "xmm10", "xmm11",
                       "xmm12", "xmm13", "xmm14", "xmm15", "cc", "memory");
}

/* The bytes of stack that `function` takes. It is run twice. */
static size_t stack_of(void (*function)(void))
{
    size_t untouched = 0;
    run_there(function); /* so that the dynamic linker has found what it calls */
    memset(painted, PAINT, sizeof painted);
    run_there(function);
    while (untouched < PAINTED_BYTES && painted[untouched] == PAINT) {
        untouched++;
    }
    return PAINTED_BYTES - untouched;
}

#endif
