/*
 * stack.h   runs a function on a stack of its own, painted before, and tells how much of it was used: the bytes from its top
 * down to the lowest word that is no longer as painted. x86-64 only. For driver.c, behind lent.h.
 */

enum { STACK_WORDS = 1 << 15 }; /* words of 8 bytes that a function may use; below them is a fence */

#define PAINT 0xC5A1D0E79B3F7254u

static uint64_t *stack; /* its lowest word */

static void make_stack(void)
{
    uint8_t *all = mmap(0, FENCE + STACK_WORDS * sizeof *stack, READ_WRITE, PRIVATE_ANONYMOUS, -1, 0);
    if (all == (void *)-1 || mprotect(all, FENCE, NO_ACCESS))
        exit(2);
    stack = (void *)(all + FENCE);
}

/* Calls run(given) with the stack pointer at the top of the painted stack. Returns how many bytes of that were used. */
static size_t stack_used(void (*run)(void *), void *given)
{
    for (size_t i = 0; i < STACK_WORDS; i++)
        stack[i] = PAINT;
    __asm__ volatile("movq %%rsp, %%rbx\n\t"
                     "movq %[top], %%rsp\n\t"
                     "callq *%[run]\n\t"
                     "movq %%rbx, %%rsp"
                     : "+D"(given)
                     : [top] "r"(stack + STACK_WORDS), [run] "r"(run)
                     : "rbx", "rax", "rcx", "rdx", "rsi", "r8", "r9", "r10", "r11", "cc", "memory", "xmm0", "xmm1", "xmm2",
                       "xmm3", "xmm4", "xmm5", "xmm6", "xmm7", "xmm8", "xmm9", "xmm10", "xmm11", "xmm12", "xmm13", "xmm14",
                       "xmm15");
    size_t free = 0;
    while (free < STACK_WORDS && stack[free] == PAINT)
        free++;
    return (STACK_WORDS - free) * sizeof *stack;
}
