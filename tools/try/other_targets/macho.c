/*
 * Loads a shared library for macOS on Linux on the same processor, and takes the functions of comfy_table.h from it. So the code
 * in the library is tested, but nothing of macOS. MACHO is the path of the library's file.
 */
#include <fcntl.h>
#include <stdint.h>
#include <stdio.h>
#include <stdlib.h>
#include <string.h>
#include <sys/mman.h>
#include <sys/stat.h>

/* The parts of such a file that are read here, as Apple's headers loader.h, nlist.h and fixup-chains.h declare them. */
struct header { uint32_t magic, processor, kind, type, commands, size, flags, reserved; };
struct command { uint32_t number, size; };
struct segment { uint32_t number, size; char name[16]; uint64_t address, room, offset, length; uint32_t rest[4]; };
struct symbols { uint32_t number, size, offset, count, names_offset, names_length; };
struct part { uint32_t number, size, offset, length; };
struct symbol { uint32_t name; uint8_t type, section; uint16_t description; uint64_t address; };
struct fixups { uint32_t version, starts, imports, names, count, import_form, name_form; };
struct starts { uint32_t size; uint16_t page_size, form; uint64_t offset; uint32_t greatest; uint16_t pages, start[]; } __attribute__((packed));
enum { SYMBOLS = 2, SEGMENT = 0x19, FIXUPS = 0x80000034, NO_FIXUP = 0xffff };

#define TAKEN(name) \
    void *name##_at; \
    TRAMPOLINE(#name)
#ifdef __x86_64__
#define TRAMPOLINE(name) __asm__(".text\n.globl " name "\n" name ": jmp *" name "_at(%rip)\n");
#else
#define TRAMPOLINE(name) \
    __asm__(".text\n.globl " name "\n" name ": adrp x16, " name "_at\nldr x16, [x16, :lo12:" name "_at]\nbr x16\n");
#endif
TAKEN(comfy_csv_draw)
TAKEN(comfy_rows_draw)
TAKEN(comfy_cells_draw)
TAKEN(comfy_rows_refused)
TAKEN(comfy_cells_refused)

static void fail(const char *what) {
    fprintf(stderr, "macho: %s\n", what);
    exit(9);
}

static void zero(void *at, size_t length) {
    memset(at, 0, length);
}

static void repeat_16_bytes(char *at, const char *bytes, size_t length) {
    for (size_t done = 0; done < length; done++) at[done] = bytes[done % 16];
}

/* A function of the C library of Linux, in place of the one of macOS. */
static void *system_function(const char *name) {
    static const struct { const char *name; void *at; } known[] = {
        {"_malloc", malloc}, {"_realloc", realloc}, {"_free", free}, {"_memcpy", memcpy}, {"_memmove", memmove}, {"_memset", memset},
        {"_memcmp", memcmp}, {"_bcmp", memcmp}, {"_bzero", zero}, {"___bzero", zero}, {"_memset_pattern16", repeat_16_bytes}};
    for (size_t at = 0; at < sizeof known / sizeof *known; at++) {
        if (!strcmp(known[at].name, name)) return known[at].at;
    }
    if (strcmp(name, "dyld_stub_binder")) fail(name);
    return NULL;
}

/* Puts the addresses of functions and data into the pages of a segment. Each place has the distance to the next one. */
static void fix(char *base, const struct starts *starts, const uint32_t *imports, const char *names) {
    for (int page = 0; page < starts->pages; page++) {
        if (starts->start[page] == NO_FIXUP) continue;
        char *at = base + starts->offset + (uint64_t)page * starts->page_size + starts->start[page];
        for (uint64_t next = 1, value; next; at += 4 * next) {
            memcpy(&value, at, 8);
            next = value >> 51 & 0xfff;
            uint64_t address = (uint64_t)base + (value & 0xfffffffff);
            if (value >> 63) address = (uint64_t)system_function(names + (imports[value & 0xffffff] >> 9)) + (value >> 24 & 255);
            memcpy(at, &address, 8);
        }
    }
}

static void fix_all(char *base, const struct fixups *fixups) {
    const uint32_t *segments = (const void *)((const char *)fixups + fixups->starts);
    const uint32_t *imports = (const void *)((const char *)fixups + fixups->imports);
    for (uint32_t at = 1; at <= segments[0]; at++) {
        if (segments[at]) fix(base, (const void *)((const char *)segments + segments[at]), imports, (const char *)fixups + fixups->names);
    }
}

static void *address_of(const char *file, char *base, const struct symbols *symbols, const char *name) {
    const struct symbol *all = (const void *)(file + symbols->offset);
    for (uint32_t at = 0; at < symbols->count; at++) {
        int is_defined = (all[at].type & 15) == 15;
        if (is_defined && !strcmp(file + symbols->names_offset + all[at].name, name)) return base + all[at].address;
    }
    fail(name);
    return NULL;
}

static const char *contents(const char *path) {
    struct stat about;
    int file = path ? open(path, O_RDONLY) : -1;
    if (file < 0 || fstat(file, &about)) fail("the file MACHO isn't there");
    return mmap(NULL, (size_t)about.st_size, PROT_READ, MAP_PRIVATE, file, 0);
}

__attribute__((constructor)) static void load(void) {
    const char *file = contents(getenv("MACHO"));
    const struct header *header = (const void *)file;
    const struct symbols *symbols = NULL;
    const struct fixups *fixups = NULL;
    const size_t most = 1 << 26;
    char *base = mmap(NULL, most, PROT_READ | PROT_WRITE | PROT_EXEC, MAP_PRIVATE | MAP_ANONYMOUS, -1, 0);
    const char *at = (const char *)(header + 1);
    for (uint32_t done = 0; done < header->commands; done++, at += ((const struct command *)at)->size) {
        const struct segment *segment = (const void *)at;
        if (segment->number == SEGMENT && segment->address + segment->room > most) fail("the file is too large");
        if (segment->number == SEGMENT) memcpy(base + segment->address, file + segment->offset, segment->length);
        if (segment->number == SYMBOLS) symbols = (const void *)at;
        if (segment->number == FIXUPS) fixups = (const void *)(file + ((const struct part *)at)->offset);
    }
    if (fixups) fix_all(base, fixups);
    __builtin___clear_cache(base, base + most);
    comfy_csv_draw_at = address_of(file, base, symbols, "_comfy_csv_draw");
    comfy_rows_draw_at = address_of(file, base, symbols, "_comfy_rows_draw");
    comfy_cells_draw_at = address_of(file, base, symbols, "_comfy_cells_draw");
    comfy_rows_refused_at = address_of(file, base, symbols, "_comfy_rows_refused");
    comfy_cells_refused_at = address_of(file, base, symbols, "_comfy_cells_refused");
}
