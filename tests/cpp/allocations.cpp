// The operators new and delete of the tests. They stand outside what is proved.
#include "allocations.hpp"

#include <cstdint>
#include <cstdlib>
#include <new>

static thread_local std::size_t bytes = 0, passes = SIZE_MAX;

std::size_t allocated() noexcept {
    return bytes;
}

Refusing::Refusing(std::size_t count) noexcept {
    passes = count;
}

Refusing::~Refusing() {
    passes = SIZE_MAX;
}

// Refuses an allocation, or lets it pass.
static void pass() {
    if (passes == 0)
        throw std::bad_alloc();
    if (passes != SIZE_MAX)
        passes--;
}

// Counts a block of so many bytes, if there is one.
static void *counted(void *it, std::size_t size) {
    if (!it)
        throw std::bad_alloc();
    bytes += size;
    return it;
}

void *operator new(std::size_t size) {
    pass();
    return counted(std::malloc(size != 0 ? size : 1), size);
}

// For what needs a greater alignment, as a table of values does.
void *operator new(std::size_t size, std::align_val_t alignment) {
    const auto step = static_cast<std::size_t>(alignment);
    pass();
    return counted(std::aligned_alloc(step, size != 0 ? (size + step - 1) / step * step : step), size);
}

// The standard's own operators for arrays call these, but those of sanitizers don't.
void *operator new[](std::size_t size) {
    return operator new(size);
}

void *operator new[](std::size_t size, std::align_val_t alignment) {
    return operator new(size, alignment);
}

void operator delete(void *it) noexcept {
    std::free(it);
}

void operator delete(void *it, std::size_t) noexcept {
    std::free(it);
}

void operator delete(void *it, std::align_val_t) noexcept {
    std::free(it);
}

void operator delete(void *it, std::size_t, std::align_val_t) noexcept {
    std::free(it);
}

void operator delete[](void *it) noexcept {
    std::free(it);
}

void operator delete[](void *it, std::size_t) noexcept {
    std::free(it);
}

void operator delete[](void *it, std::align_val_t) noexcept {
    std::free(it);
}

void operator delete[](void *it, std::size_t, std::align_val_t) noexcept {
    std::free(it);
}
