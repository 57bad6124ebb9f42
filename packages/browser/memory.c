/*
 * The functions malloc, realloc and free in a WebAssembly module. The number of bytes of a block is a power of two, and the
 * exponent is the block's class. Before each block is a header of 16 bytes, which holds the class. The freed blocks of each class
 * are in a list. Free blocks are never joined, and no memory is given back to the browser. For this reason the page makes a new
 * instance of the module for each drawing.
 *
 * These functions aren't proved.
 */
typedef unsigned long u64;

struct header {
    u64 class;
    u64 padding;
};

extern unsigned char __heap_base;
static u64 next, end;
static void *freed[64];

/* Asks the browser for memory up to an address, and for a quarter of the present memory besides. If the browser refuses that, this
 * asks only for memory up to the address. Returns 0 if this is refused too. */
static int is_grown_to(u64 address) {
    u64 pages = (address - end + 65535) >> 16, more = pages + (end >> 18);
    if (__builtin_wasm_memory_grow(0, more) == (u64)-1) more = __builtin_wasm_memory_grow(0, pages) == (u64)-1 ? 0 : pages;
    end += more << 16;
    return more > 0;
}

__attribute__((export_name("malloc"))) void *malloc(u64 size) {
    if (size > 1ul << 40) return 0;
    u64 class = size <= 16 ? 4 : 64 - __builtin_clzl(size - 1);
    void *block = freed[class];
    if (block) {
        freed[class] = *(void **)block;
        return block;
    }
    if (!next) {
        next = ((u64)&__heap_base + 15) & ~15ul;
        end = __builtin_wasm_memory_size(0) << 16;
    }
    u64 after = next + (1ul << class) + sizeof(struct header);
    if (after > end && !is_grown_to(after)) return 0;
    struct header *header = (struct header *)next;
    next = after;
    header->class = class;
    return header + 1;
}

__attribute__((export_name("free"))) void free(void *block) {
    if (!block) return;
    u64 class = ((struct header *)block - 1)->class;
    *(void **)block = freed[class];
    freed[class] = block;
}

void *realloc(void *block, u64 size) {
    if (!block) return malloc(size);
    u64 room = 1ul << ((struct header *)block - 1)->class;
    if (size <= room) return block;
    void *larger = malloc(size);
    if (!larger) return 0;
    __builtin_memcpy(larger, block, room);
    free(block);
    return larger;
}
