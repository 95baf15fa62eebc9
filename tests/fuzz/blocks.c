/* What an input has met, told to libFuzzer.
 *
 * The archive, x86-64 code, is not compiled for libFuzzer. So the first byte of each block of its code, a run of instructions without a jump, is made
 * a breakpoint when the program starts. The first input that runs a block meets the breakpoint; the byte is put back, and a counter tells libFuzzer
 * that this input has met a new block. Answers of the calls are told by counters too. */
#define _GNU_SOURCE
#include <signal.h>
#include <stdio.h>
#include <stdlib.h>
#include <sys/mman.h>
#include <ucontext.h>
#include <unistd.h>

#include "fuzz.h"

enum { MOST_BLOCKS = 8192, VALUES = 256, BREAKPOINT = 0xCC };

/* libFuzzer reads the bytes of this section after each input. */
__attribute__((used, section("__libfuzzer_extra_counters"))) static uint8_t counters[MOST_BLOCKS + KINDS * VALUES];

/* The blocks by rising address, and the byte that stands there. */
static struct block {
    uint8_t *address;
    uint8_t byte;
} blocks[MOST_BLOCKS];
static size_t block_count, blocks_met;

/* How many times each value of each kind was met. */
static unsigned long times[KINDS][VALUES];

/* The blocks whose breakpoints were met while no input was run; they are set again. */
static struct block *untold[MOST_BLOCKS];
static size_t untold_count;
static int is_running;

void meet(enum kind kind, uint32_t value)
{
    uint32_t least = value < VALUES ? value : VALUES - 1;
    counters[MOST_BLOCKS + VALUES * kind + least] = 1;
    times[kind][least]++;
}

/* Compares a block's address with another's. */
static int compare(const void *one, const void *other)
{
    const uint8_t *first = ((const struct block *)one)->address, *second = ((const struct block *)other)->address;
    return (first > second) - (first < second);
}

/* A breakpoint was met: puts the block's byte back, tells the block if an input is run, and goes on there. */
static void on_trap(int number, siginfo_t *information, void *context)
{
    (void)number, (void)information;
    greg_t *place = &((ucontext_t *)context)->uc_mcontext.gregs[REG_RIP];
    struct block wanted = {(uint8_t *)(*place - 1), 0};
    struct block *block = bsearch(&wanted, blocks, block_count, sizeof *blocks, compare);
    if (block == NULL)
        abort();
    *block->address = block->byte;
    *place = (greg_t)block->address;
    if (!is_running) {
        untold[untold_count++] = block;
        return;
    }
    counters[block - blocks] = 1;
    blocks_met++;
}

void begin_input(void)
{
    while (untold_count > 0)
        *untold[--untold_count]->address = BREAKPOINT;
    is_running = 1;
}

void end_input(void)
{
    is_running = 0;
}

/* Says how many blocks were met, and the answers of each call with their counts. */
static void report(void)
{
    static const char *const calls[] = {"check", "list", "read", "format", "put", "delete", "careful put", "careful delete", "mend", "gather",
                                        "make directory", "remove directory"};
    fprintf(stderr, "blocks of the library met: %zu of %zu\nanswers of each call, number and count:\n", blocks_met, block_count);
    for (size_t call = 0; call < sizeof calls / sizeof *calls; call++) {
        fprintf(stderr, "%s", calls[call]);
        for (size_t number = 0; number < VALUES / PAGES_TOLD; number++) {
            unsigned long count = 0;
            for (size_t page = 0; page < PAGES_TOLD; page++)
                count += times[call][number * PAGES_TOLD + page];
            if (count > 0)
                fprintf(stderr, "  %zu: %lu", number, count);
        }
        fprintf(stderr, "\n");
    }
}

/* Makes the page of a block's code writable and its first byte a breakpoint. */
static void set_breakpoint(struct block *block)
{
    uintptr_t page = (uintptr_t)getpagesize();
    uint8_t *start = (uint8_t *)((uintptr_t)block->address / page * page);
    if (mprotect(start, page, PROT_READ | PROT_WRITE | PROT_EXEC) != 0) {
        perror("mprotect");
        exit(2);
    }
    block->byte = *block->address;
    *block->address = BREAKPOINT;
}

void watch_blocks(const char *file)
{
    FILE *addresses = fopen(file, "r");
    uintptr_t address;
    while (addresses != NULL && block_count < MOST_BLOCKS && fscanf(addresses, "%lx", &address) == 1)
        blocks[block_count++].address = (uint8_t *)address;
    if (block_count == 0) {
        fprintf(stderr, "no addresses of blocks in %s\n", file);
        exit(2);
    }
    fclose(addresses);
    qsort(blocks, block_count, sizeof *blocks, compare);
    struct sigaction action = {.sa_sigaction = on_trap, .sa_flags = SA_SIGINFO};
    sigaction(SIGTRAP, &action, NULL);
    for (size_t place = 0; place < block_count; place++)
        set_breakpoint(&blocks[place]);
    atexit(report);
}
