/* Prints what a heap of the library asks of the C library, and what it returns. It stands outside what is proved.
 *
 * The heap is the toolchain's, or packaging/heap_arm64.c. The linker hands its malloc, realloc and free to the functions below (--wrap), which
 * print what they get. So two heaps that print the same make the same requests, and return the same for them. */
#include <stdbool.h>
#include <stddef.h>
#include <stdint.h>
#include <stdio.h>
#include <stdlib.h>
#include <string.h>

/* What the library declares: whether there is memory, and where. */
struct tried {
    bool done;
    void *block;
};

struct tried rattle_alloc(size_t size, size_t align);
struct tried rattle_realloc(void *block, size_t kept, size_t size, size_t align);
void rattle_dealloc(void *block);

void *__real_malloc(size_t size);
void *__real_realloc(void *block, size_t size);
void __real_free(void *block);
void *__wrap_malloc(size_t size);
void *__wrap_realloc(void *block, size_t size);
void __wrap_free(void *block);

/* Whether requests are refused, and the block that realloc and free have to get. */
static bool is_refused;
static void *held;

void *__wrap_malloc(size_t size) {
    printf(" malloc(%zu)", size);
    return is_refused ? NULL : __real_malloc(size);
}

void *__wrap_realloc(void *block, size_t size) {
    printf(" realloc(%s, %zu)", block == held ? "it" : "another", size);
    return is_refused ? NULL : __real_realloc(block, size);
}

void __wrap_free(void *block) {
    printf(" free(%s)\n", block == held ? "it" : "another");
    __real_free(block);
}

/* Callers ask for no wider alignment, and for no more bytes. */
enum { WIDEST = 16, KEPT = 24 };
static const size_t MOST = SIZE_MAX >> 1;

static void tell(struct tried it) {
    const char *aligned = (uintptr_t)it.block % WIDEST == 0 ? ", aligned" : ", not aligned";
    printf(": %s%s%s\n", it.done ? "done" : "refused", it.block != NULL ? "" : ", null", it.done ? aligned : "");
}

/* A block, and what is told of it. */
static struct tried allocated(size_t size, size_t align) {
    printf("alloc %zu %zu:", size, align);
    struct tried it = rattle_alloc(size, align);
    tell(it);
    return it;
}

static void deallocated(void *block) {
    held = block;
    printf("dealloc:");
    rattle_dealloc(block);
}

/* Makes a block of KEPT bytes one of another size, and tells whether the bytes stay that have to. A block that isn't moved keeps all. */
static void resized(size_t size, bool refused) {
    unsigned char bytes[KEPT];
    size_t kept = size < KEPT ? size : KEPT;
    struct tried it = allocated(KEPT, 8);
    held = it.block;
    for (size_t i = 0; i < KEPT; i++)
        bytes[i] = (unsigned char)(7 * i + 1);
    memcpy(held, bytes, KEPT);
    is_refused = refused;
    printf("realloc %zu %zu:", kept, size);
    it = rattle_realloc(held, kept, size, 8);
    is_refused = false;
    tell(it);
    unsigned char *now = it.done ? it.block : held;
    printf("%s\n", memcmp(now, bytes, it.done ? kept : KEPT) == 0 ? "kept" : "lost");
    deallocated(now);
}

int main(void) {
    static const size_t sizes[] = {0, 1, KEPT, 4096, 1 << 20};
    for (size_t i = 0; i < sizeof sizes / sizeof *sizes; i++)
        for (size_t align = 1; align <= WIDEST; align *= 2) {
            struct tried it = allocated(sizes[i], align);
            memset(it.block, 255, sizes[i] != 0 ? sizes[i] : align);
            deallocated(it.block);
        }
    allocated(MOST, WIDEST);
    is_refused = true;
    allocated(0, 1);
    allocated(KEPT, 8);
    is_refused = false;
    for (size_t i = 0; i < sizeof sizes / sizeof *sizes; i++) {
        resized(sizes[i], false);
        resized(sizes[i], true);
    }
    resized(MOST, false);
    return 0;
}
