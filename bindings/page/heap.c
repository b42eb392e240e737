/* The heap of the page's module: what Rattle code calls for memory, over memory.grow. Blocks are of 16, 32, 48 and 64
 * bytes, and above of 5, 6, 7 and 8 quarters of each power of two; a freed block is kept in the list of its size.
 * The page starts the module anew for each call, so that nothing is ever given back. */
typedef unsigned long size;
typedef struct { size is_given; void *at; } tried; /* as the lowered code reads it: of is_given the first byte */
typedef struct block { struct block *next; } block;
typedef struct { size kind, pad; } head; /* 16 bytes before each block */
extern unsigned char __heap_base;
static block *freed[256];
static unsigned char *top, *end, nothing;

static size kind_of(size bytes) {
    if (bytes <= 64) return bytes <= 16 ? 0 : (bytes - 1) / 16;
    size power = 63 - (size)__builtin_clzl(bytes - 1);
    return (power - 5) * 4 + (((bytes - 1) >> (power - 2)) & 3);
}
static size size_of(size kind) {
    if (kind < 4) return (kind + 1) * 16;
    size power = kind / 4 + 5;
    return ((size)1 << power) + ((kind & 3) + 1) * ((size)1 << (power - 2));
}
static _Bool is_grown(size pages) {
    if (__builtin_wasm_memory_grow(0, pages) == (size)-1) return 0;
    end += pages << 16;
    return 1;
}
static tried take(size bytes) {
    tried none = {0, &nothing};
    if (bytes > (size)1 << 40) return none;
    size kind = kind_of(bytes), needed = size_of(kind) + sizeof(head);
    if (freed[kind]) {
        block *first = freed[kind];
        freed[kind] = first->next;
        return (tried){1, first};
    }
    if (!top) {
        top = (unsigned char *)(((size)&__heap_base + 15) & ~(size)15);
        end = (unsigned char *)(__builtin_wasm_memory_size(0) << 16);
    }
    if ((size)(end - top) < needed) { /* an eighth more at once, if there is as much */
        size pages = (needed - (size)(end - top) + 65535) >> 16, more = (size)end >> 19;
        if (!is_grown(more > pages ? more : pages) && !is_grown(pages)) return none;
    }
    ((head *)top)->kind = kind;
    top += needed;
    return (tried){1, top - size_of(kind)};
}
tried rattle_alloc(size bytes, size align) { return take(bytes ? bytes : align); }
void rattle_dealloc(void *at) {
    size kind = ((head *)at)[-1].kind;
    ((block *)at)->next = freed[kind];
    freed[kind] = at;
}
tried rattle_realloc(void *at, size kept, size bytes, size align) {
    if (bytes <= size_of(((head *)at)[-1].kind)) return (tried){1, at};
    tried moved = take(bytes ? bytes : align);
    if (!moved.is_given) return moved;
    __builtin_memcpy(moved.at, at, kept < bytes ? kept : bytes);
    rattle_dealloc(at);
    return moved;
}
/* For the page: room for what it passes and gets; 0 where there is none. */
void *page_block(size bytes) {
    tried got = take(bytes);
    return got.is_given ? got.at : 0;
}
/* What clang calls where no libgcc is: the product of two numbers of 128 bits, modulo 2^128. */
typedef unsigned __int128 wide;
wide __multi3(wide a, wide b) {
    size a0 = (unsigned)a, a1 = (size)a >> 32, b0 = (unsigned)b, b1 = (size)b >> 32, low = a0 * b0;
    size middle = (low >> 32) + (unsigned)(a0 * b1) + (unsigned)(a1 * b0);
    size high = a1 * b1 + (a0 * b1 >> 32) + (a1 * b0 >> 32) + (middle >> 32);
    high += (size)a * (size)(b >> 64) + (size)(a >> 64) * (size)b;
    return ((wide)high << 64) | (middle << 32) | (unsigned)low;
}
