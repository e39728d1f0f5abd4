/* The heap of the program and the library for ARM64, for which the toolchain has none: the three functions by which they allocate and free,
 * over malloc. These do what the toolchain's do on x86-64, and tests/library compares the two. This is C and no part of what is proved: the
 * proof trusts that each block has the bytes and the alignment that were asked for, and that nobody else uses it. */
#include <stdbool.h>
#include <stddef.h>
#include <stdlib.h>

/* Callers ask for no wider alignment than this, and for less than 2^63 bytes. */
enum { WIDEST = 16 };
_Static_assert(_Alignof(max_align_t) >= WIDEST, "malloc aligns blocks to less than callers may ask for");

/* Whether there is memory, and where. If there is none, `block` isn't null, and may not be used. */
struct tried {
    bool done;
    void *block;
};

static struct tried tried(void *block) {
    static char nothing;
    return (struct tried){block != NULL, block != NULL ? block : &nothing};
}

struct tried rattle_alloc(size_t size, size_t align);
struct tried rattle_realloc(void *block, size_t kept, size_t size, size_t align);
void rattle_dealloc(void *block);

/* A block of `size` bytes. For 0 bytes malloc may return null although there is memory, so it is asked for `align` bytes. */
struct tried rattle_alloc(size_t size, size_t align) {
    return tried(malloc(size != 0 ? size : align));
}

/* Makes a block one of `size` bytes, whose first `kept` bytes are as they were. If there is no memory, the block is as it was. For 0 bytes
 * realloc may free the block, so it is asked for `align` bytes. */
struct tried rattle_realloc(void *block, size_t kept, size_t size, size_t align) {
    (void)kept;
    return tried(realloc(block, size != 0 ? size : align));
}

/* Frees a block of either. */
void rattle_dealloc(void *block) {
    free(block);
}
