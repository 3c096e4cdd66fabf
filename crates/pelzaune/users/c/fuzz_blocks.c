/* Coverage of the proved library, which is fuzzed as it is built. Each basic block begins with a breakpoint until it
 * runs, and then has a counter of libFuzzer's: an input that runs a new block is kept. */
#define _GNU_SOURCE
#include <dlfcn.h>
#include <link.h>
#include <signal.h>
#include <stdint.h>
#include <stdio.h>
#include <stdlib.h>
#include <sys/mman.h>
#include <ucontext.h>

/* Offsets in the library, each once. */
static const uint32_t blocks[] = {
#include "fuzz_blocks.h"
};
enum { BLOCKS = sizeof blocks / sizeof *blocks, PAGE = 4096, BREAKPOINT = 0xcc };

/* libFuzzer clears these before each input, and reads them after it. */
__attribute__((used, section("__libfuzzer_extra_counters"))) static volatile uint8_t counters[BLOCKS];

static uint8_t *library, first_bytes[BLOCKS];
static int visited;

int LLVMFuzzerInitialize(int *count, char ***words);

static int in_order(const void *one, const void *other)
{
    uint32_t a = *(const uint32_t *)one, b = *(const uint32_t *)other;
    return (a > b) - (a < b);
}

/* Counts the block of a breakpoint, and runs its first instruction again without it. */
static void count_block(int number, siginfo_t *info, void *context)
{
    greg_t *next = &((ucontext_t *)context)->uc_mcontext.gregs[REG_RIP];
    uint32_t offset = (uint32_t)(*next - 1 - (greg_t)(uintptr_t)library);
    const uint32_t *block = bsearch(&offset, blocks, BLOCKS, sizeof *blocks, in_order);
    (void)number, (void)info;
    if (!block) abort();
    library[offset] = first_bytes[block - blocks];
    counters[block - blocks] = 1;
    visited++;
    --*next;
}

static void report(void)
{
    fprintf(stderr, "%d of %d basic blocks of the library ran\n", visited, BLOCKS);
}

static void fail(const char *what)
{
    fprintf(stderr, "fuzz_blocks.c: %s\n", what);
    exit(2);
}

int LLVMFuzzerInitialize(int *count, char ***words)
{
    struct link_map *map = NULL;
    void *handle = dlopen(FUZZED, RTLD_NOW | RTLD_NOLOAD);
    struct sigaction action = { .sa_sigaction = count_block, .sa_flags = SA_SIGINFO };
    (void)count, (void)words;
    if (!handle || dlinfo(handle, RTLD_DI_LINKMAP, &map)) fail("the library isn't loaded");
    library = (uint8_t *)map->l_addr;
    size_t first = blocks[0] / PAGE * PAGE, end = (blocks[BLOCKS - 1] / PAGE + 1) * PAGE;
    if (mprotect(library + first, end - first, PROT_READ | PROT_WRITE | PROT_EXEC)) fail("the library isn't writable");
    sigaction(SIGTRAP, &action, NULL);
    for (size_t k = 0; k < BLOCKS; k++) {
        first_bytes[k] = library[blocks[k]];
        library[blocks[k]] = BREAKPOINT;
    }
    atexit(report);
    return 0;
}
