/* Tries the heap of dist/runtime.c: 300,000 calls on 4,000 blocks at a time, each of which has to keep its own bytes
   and an address that is a multiple of 16; that freed blocks are used again; and what it answers where there is no more
   memory. Says what doesn't hold, and ends with 1. */
#define SOYC_PROGRAM
#include "../dist/runtime.c"
#include <malloc.h>
#include <stdio.h>
#include <sys/resource.h>

enum { BLOCKS = 4000, CALLS = 300000 };
static struct {
    unsigned char *bytes;
    uint64_t size;
    unsigned char mark;
} blocks[BLOCKS];

static uint64_t state = 7;
static uint64_t below(uint64_t most) {
    state = state * 6364136223846793005u + 1442695040888963407u;
    return (state >> 33) % most;
}

/* Mostly small, some about as large as a small one may be, a few large. */
static uint64_t some_size(void) {
    uint64_t kind = below(100);
    return kind < 80 ? below(200) : kind < 98 ? MOST - 40 + below(80) : below(20000);
}

static int is_kept(unsigned number, uint64_t size) {
    for (uint64_t at = 0; at < size; at++)
        if (blocks[number].bytes[at] != blocks[number].mark) return 0;
    return 1;
}

/* Takes the block that a call gave, which has these many bytes of the one before. */
static int takes(unsigned number, struct block made, uint64_t size, uint64_t kept) {
    blocks[number].bytes = made.address;
    if (!made.is_there || (uintptr_t)made.address % 16 || !is_kept(number, kept)) return 0;
    blocks[number].size = size;
    blocks[number].mark = (unsigned char)below(256);
    memset(made.address, blocks[number].mark, size);
    return 1;
}

static int holds(void) {
    unsigned number = (unsigned)below(BLOCKS);
    uint64_t old = blocks[number].size, size = some_size();
    if (!blocks[number].bytes) return takes(number, rattle_alloc(size, 8), size, 0);
    if (!is_kept(number, old)) return 0;
    if (below(3) == 0)
        return takes(number, rattle_realloc(blocks[number].bytes, old, size, 8), size, old < size ? old : size);
    rattle_dealloc(blocks[number].bytes);
    blocks[number].bytes = NULL;
    return 1;
}

/* Whether a block is unchanged when more memory is asked for it than there is. */
static int is_refused(struct block old, uint64_t size, uint64_t more) {
    memset(old.address, 7, size);
    if (rattle_realloc(old.address, size, more, 8).is_there) return 0;
    for (uint64_t at = 0; at < size; at++)
        if (((unsigned char *)old.address)[at] != 7) return 0;
    return 1;
}

/* Whether the heap says so where memory runs out. */
static int runs_out(void) {
    struct rlimit most = {64 << 20, 64 << 20};
    if (setrlimit(RLIMIT_AS, &most) != 0) return 0;
    while (rattle_alloc(1000, 8).is_there) continue;
    return 1;
}

int main(void) {
    for (int call = 0; call < CALLS; call++)
        if (!holds()) return printf("the heap doesn't hold after call %d\n", call), 1;
    for (unsigned number = 0; number < BLOCKS; number++)
        if (blocks[number].bytes) rattle_dealloc(blocks[number].bytes);
    if (mallinfo2().uordblks > 8 << 20) return puts("freed blocks aren't used again"), 1;
    if (rattle_alloc((uint64_t)1 << 63, 8).is_there || rattle_alloc(UINT64_MAX, 8).is_there)
        return puts("a block is there that no memory has"), 1;
    if (!is_refused(rattle_alloc(24, 8), 24, UINT64_MAX - 7) ||
        !is_refused(rattle_alloc(5000, 8), 5000, UINT64_MAX - 7) ||
        !is_refused(rattle_alloc(5000, 8), 5000, (uint64_t)1 << 62))
        return puts("a block grew beyond what memory there is, or was lost"), 1;
    return runs_out() ? 0 : (puts("no limit was set"), 1);
}
