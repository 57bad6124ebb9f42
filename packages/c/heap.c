/*
 * The functions by which the library allocates memory. This file replaces liblibc_c.a on a target for which the Rattle toolchain
 * has no such file.
 *
 * It isn't proved that these functions do what the toolchain's crate libc promises of them.
 *
 * On every target, the proved code takes the two numbers of struct answer in registers, as C does on Linux for x86-64. So
 * tools/make/targets.py first compiles this file to LLVM's intermediate code for Linux on x86-64.
 */
typedef unsigned long long u64;

extern void *malloc(u64);
extern void *realloc(void *, u64);
extern void free(void *);

/* 1 and the address of a block, or 0 and an address that isn't used. */
struct answer {
    u64 is_there;
    u64 address;
};

static struct answer answer_of(void *block) {
    static char nothing;
    return (struct answer){block != 0, (u64)(block ? block : &nothing)};
}

/* Sizes and alignments are in bytes. The proved code needs an alignment of at most 16 bytes, and malloc aligns each block to as
 * many bytes as needed. */
struct answer rattle_alloc(u64 size, u64 alignment) {
    return answer_of(malloc(size ? size : alignment));
}

struct answer rattle_realloc(void *block, u64 kept, u64 size, u64 alignment) {
    (void)kept;
    return answer_of(realloc(block, size ? size : alignment));
}

void rattle_dealloc(void *block) {
    free(block);
}
