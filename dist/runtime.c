/* What the text of soyc.s.gz calls beside the C library: the heap, the number of the last failure, and the words of the
   command line. Where the Rattle kit is, its own archives of C stand in this file's stead. */
#include <errno.h>
#include <stdint.h>
#include <stdlib.h>
#include <string.h>
#ifdef SOYC_PROGRAM
#include <sys/mman.h>
#endif

#ifndef __GLIBC__
#error "this needs glibc, which hands the words of the command line to a constructor"
#endif

/* Whether there is a block, and its address: one that nobody reads where there is none. */
struct block {
    uint64_t is_there;
    void *address;
};
static char no_block[16];

static struct block block_of(void *address) {
    return address ? (struct block){1, address} : (struct block){0, no_block};
}

/* The three functions of the heap. Like the kit's, they take the alignment of malloc, 16, to be enough. A block of no
   bytes has as many as its alignment says. */
#ifndef SOYC_PROGRAM

/* The library is loaded by programs of many threads, whose heap it shares. */
struct block rattle_alloc(uint64_t size, uint64_t align) { return block_of(malloc(size ? size : align)); }

struct block rattle_realloc(void *address, uint64_t old_size, uint64_t size, uint64_t align) {
    (void)old_size;
    return block_of(realloc(address, size ? size : align));
}

void rattle_dealloc(void *address) { free(address); }

#else

/* The program has one thread, and most of its blocks are small ones that are made and freed again soon. These are cut
   from chunks, and a freed one waits for the next block of its size; chunks are never given back. The system makes
   all pages of a chunk at once, which is quicker than one by one as they are first written. The word before a block has
   its size, that word included, in steps of 16 bytes. Larger blocks are malloc's, and their word is 0. */
enum { STEP = 16, WORD = 8, SIZES = 64, MOST = SIZES * STEP - WORD, CHUNK = 1 << 17 };
static struct freed {
    struct freed *next;
} *freed[SIZES + 1];
static char *rest;
static uint64_t rest_size;

static uint64_t *steps_of(void *address) { return (uint64_t *)address - 1; }

static void *large_block(void *old, uint64_t size) {
    char *made = realloc(old, size + STEP);
    if (!made) return NULL;
    *steps_of(made + STEP) = 0;
    return made + STEP;
}

static void *cut_block(uint64_t steps) {
    char *made;
    if (rest_size < steps * STEP) {
        /* (what is left of the chunk before, at most a kilobyte, is lost) */
        char *chunk = mmap(NULL, CHUNK, PROT_READ | PROT_WRITE, MAP_PRIVATE | MAP_ANONYMOUS | MAP_POPULATE, -1, 0);
        if (chunk == MAP_FAILED) return NULL;
        /* (addresses are multiples of 16, and their words stand before them) */
        rest = chunk + STEP - WORD;
        rest_size = CHUNK - (STEP - WORD);
    }
    made = rest + WORD;
    rest += steps * STEP;
    rest_size -= steps * STEP;
    *steps_of(made) = steps;
    return made;
}

static void *new_block(uint64_t size) {
    uint64_t steps;
    struct freed *found;
    if (size > MOST) return size > PTRDIFF_MAX ? NULL : large_block(NULL, size);
    steps = (size + WORD + STEP - 1) / STEP;
    found = freed[steps];
    if (!found) return cut_block(steps);
    freed[steps] = found->next;
    return found;
}

struct block rattle_alloc(uint64_t size, uint64_t align) { return block_of(new_block(size ? size : align)); }

void rattle_dealloc(void *address) {
    uint64_t steps = *steps_of(address);
    struct freed *it = address;
    if (!steps) {
        free((char *)address - STEP);
        return;
    }
    it->next = freed[steps];
    freed[steps] = it;
}

struct block rattle_realloc(void *address, uint64_t old_size, uint64_t size, uint64_t align) {
    uint64_t steps = *steps_of(address);
    void *made;
    if (!size) size = align;
    if (!steps && size > MOST && size <= PTRDIFF_MAX) return block_of(large_block((char *)address - STEP, size));
    if (steps && size <= steps * STEP - WORD) return block_of(address);
    made = new_block(size);
    if (made) {
        memcpy(made, address, old_size < size ? old_size : size);
        rattle_dealloc(address);
    }
    return block_of(made);
}

#endif

int32_t rattle_errno(void) { return errno; }

void rattle_set_errno(int32_t number) { errno = number; }

static int word_count;
static char **words;

__attribute__((constructor)) static void keep_words(int count, char **given) {
    word_count = count;
    words = given;
}

int64_t rattle_arg_count(void) { return word_count; }

/* Copies a word without the byte that ends it, and gives its length: -1 where there is no such word, -2 where the room
   is too small. */
int64_t rattle_arg(uint64_t index, char *room, uint64_t room_size) {
    uint64_t length = 0;
    if (index >= (uint64_t)word_count || !words[index]) return -1;
    for (; words[index][length]; length++) {
        if (length == room_size) return -2;
        room[length] = words[index][length];
    }
    return (int64_t)length;
}
