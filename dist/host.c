/* What the program calls beside its own code where it is a WebAssembly module: the heap, compared bytes, the words, and
   the files and streams, which the page supplies. Compiled by dist/renew. Sizes and addresses have 64 bits here. */
typedef unsigned char u8;
typedef unsigned int u32;
typedef unsigned long long u64;
typedef long long i64;
typedef unsigned long size_t;

/* What the page supplies. */
#define HOST(name) __attribute__((import_module("host"), import_name(#name)))
HOST(arg) i64 host_arg(u64 index, char *room, u64 room_size);
HOST(open) int host_open(const char *path);
HOST(close) int host_close(int file);
HOST(read) i64 host_read(int file, char *room, u64 room_size);
HOST(write) i64 host_write(int file, const char *bytes, u64 length);

/* The heap. A block has a size class, which is kept in the 16 bytes before it: 32, 48, 64, 80, 96, 112, 128, 160 ..
   bytes in all, four between a power of two and the next. A freed block waits for the next one of its class. */
struct tried {
    u64 is_there;
    void *address;
};
enum { CLASSES = 160, HEAD = 16, PAGE = 65536 };
extern u8 __heap_base;
static struct freed { struct freed *next; } *freed[CLASSES];
static u8 no_block[16];
static u64 top, end;

static u64 size_of(int class) {
    return class < 2 ? 32 + 16 * class : (u64)(4 + (class - 2) % 4) << ((class - 2) / 4 + 4);
}

static int class_for(u64 size) {
    int class = 0;
    while (size_of(class) < size + HEAD) class++;
    return class;
}

static u64 *class_of(void *address) { return (u64 *)((u8 *)address - HEAD); }

static struct tried block(u64 size) {
    struct tried none = {0, no_block};
    u64 whole, pages;
    int class;
    u8 *at;
    if (size >> 32) return none;
    class = class_for(size);
    whole = size_of(class);
    if (freed[class]) {
        at = (u8 *)freed[class] - HEAD;
        freed[class] = freed[class]->next;
    } else {
        if (!top) {
            top = ((u64)&__heap_base + 15) & ~15ull;
            end = (u64)__builtin_wasm_memory_size(0) * PAGE;
        }
        if (end - top < whole) {
            pages = (whole - (end - top) + PAGE - 1) / PAGE;
            if (pages < 16) pages = 16;
            if (__builtin_wasm_memory_grow(0, pages) == (size_t)-1) return none;
            end += pages * PAGE;
        }
        at = (u8 *)top;
        top += whole;
    }
    *(u64 *)at = class;
    return (struct tried){1, at + HEAD};
}

struct tried rattle_alloc(u64 size, u64 align) { return block(size ? size : align); }

void rattle_dealloc(void *address) {
    struct freed *it = address;
    u64 class = *class_of(address);
    it->next = freed[class];
    freed[class] = it;
}

struct tried rattle_realloc(void *address, u64 old_size, u64 size, u64 align) {
    struct tried made;
    if (!size) size = align;
    if (class_for(size) == (int)*class_of(address)) return (struct tried){1, address};
    made = block(size);
    if (made.is_there) {
        __builtin_memcpy(made.address, address, old_size < size ? old_size : size);
        rattle_dealloc(address);
    }
    return made;
}

int memcmp(const void *one, const void *other, size_t length) {
    const u8 *a = one, *b = other;
    for (; length; length--, a++, b++)
        if (*a != *b) return *a < *b ? -1 : 1;
    return 0;
}

/* Products and shifts of numbers of 128 bits, which the compiler leaves to functions. */
union wide {
    __int128 whole;
    struct { u64 low, high; } half;
};
__int128 __multi3(__int128 one, __int128 other) {
    const u64 mask = 0xffffffff;
    union wide a = {one}, b = {other}, made;
    u64 low = (a.half.low & mask) * (b.half.low & mask);
    u64 left = (a.half.low >> 32) * (b.half.low & mask) + (low >> 32);
    u64 right = (a.half.low & mask) * (b.half.low >> 32) + (left & mask);
    made.half.low = right << 32 | (low & mask);
    made.half.high = (a.half.low >> 32) * (b.half.low >> 32) + (left >> 32) + (right >> 32);
    made.half.high += a.half.low * b.half.high + a.half.high * b.half.low;
    return made.whole;
}
__int128 __ashlti3(__int128 number, int count) {
    union wide a = {number};
    if (count >= 64) {
        a.half.high = a.half.low << (count - 64);
        a.half.low = 0;
    } else if (count > 0) {
        a.half.high = a.half.high << count | a.half.low >> (64 - count);
        a.half.low <<= count;
    }
    return a.whole;
}
__int128 __lshrti3(__int128 number, int count) {
    union wide a = {number};
    if (count >= 64) {
        a.half.low = a.half.high >> (count - 64);
        a.half.high = 0;
    } else if (count > 0) {
        a.half.low = a.half.low >> count | a.half.high << (64 - count);
        a.half.high >>= count;
    }
    return a.whole;
}

/* What x86-64's pshufb does: each byte made is the one that the low four bits of its place name, or 0 where the place's
   highest bit is set. */
void shuffle_bytes(u8 *made, const u8 *bytes, const u8 *places) {
    for (int at = 0; at < 16; at++) made[at] = places[at] & 0x80 ? 0 : bytes[places[at] & 15];
}

/* The number of the last failure; the page sets it too. */
static int number;
int rattle_errno(void) { return number; }
void rattle_set_errno(int it) { number = it; }
void set_errno(int it) { number = it; }

i64 rattle_arg(u64 index, char *room, u64 room_size) { return host_arg(index, room, room_size); }
int open(const char *path, int flags, ...) { return host_open(path); }
int close(int file) { return host_close(file); }
i64 read(int file, char *room, u64 room_size) { return host_read(file, room, room_size); }
i64 write(int file, const char *bytes, u64 length) { return host_write(file, bytes, length); }
i64 __write(int file, const char *bytes, u64 length) { return host_write(file, bytes, length); }

/* A page has no signals, and the module asks for no feature of a processor. */
i64 __sysv_signal(int signal, i64 handler) { return 0; }
static u32 features[64] = {[0 ... 63] = ~0u};
void *__x86_get_cpuid_feature_leaf(u32 leaf) { return features; }
