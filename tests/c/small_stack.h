/* A stack of 16 KiB for the calls of a test: `on_small_stack` runs a function there and tells how many bytes of it were used. Below it lies memory that
 * may not be touched, so that a function which needs more ends the program. Include it once, with _DEFAULT_SOURCE defined. */
#ifndef SMALL_STACK_H
#define SMALL_STACK_H

#include <stdint.h>
#include <stdio.h>
#include <stdlib.h>
#include <string.h>
#include <sys/mman.h>
#include <ucontext.h>

/* The memory below the stack is long enough that no call's frame reaches over it. */
enum { SMALL_STACK = 16 * 1024, BELOW_STACK = 1 << 20, UNUSED = 0x5E };

static uint8_t *small_stack; /* its lowest byte */
static ucontext_t before_call, in_call;

/* Ends the program because there is no such stack. */
static void no_stack(void)
{
    fprintf(stderr, "no stack\n");
    exit(2);
}

/* Makes the stack, above memory that may not be touched. */
static void make_small_stack(void)
{
    uint8_t *memory = mmap(NULL, BELOW_STACK + SMALL_STACK, PROT_READ | PROT_WRITE, MAP_PRIVATE | MAP_ANONYMOUS, -1, 0);
    if (memory == MAP_FAILED || mprotect(memory, BELOW_STACK, PROT_NONE) != 0)
        no_stack();
    small_stack = memory + BELOW_STACK;
}

/* The bytes of the stack that were written, from the lowest one that has changed up. */
static size_t used_stack(void)
{
    size_t unused = 0;
    while (unused < SMALL_STACK && small_stack[unused] == UNUSED)
        unused++;
    return SMALL_STACK - unused;
}

/* Runs a function on the small stack, and tells the bytes that it has used there. */
static size_t on_small_stack(void (*work)(void))
{
    memset(small_stack, UNUSED, SMALL_STACK);
    if (getcontext(&in_call) != 0)
        no_stack();
    in_call.uc_stack.ss_sp = small_stack;
    in_call.uc_stack.ss_size = SMALL_STACK;
    in_call.uc_link = &before_call;
    makecontext(&in_call, work, 0);
    if (swapcontext(&before_call, &in_call) != 0)
        no_stack();
    return used_stack();
}

#endif
