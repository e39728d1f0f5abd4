// Counts what this thread allocates by operator new, and has an allocation fail. It stands outside what is proved.
#ifndef ALLOCATIONS_HPP
#define ALLOCATIONS_HPP

#include <cstddef>

// How many bytes this thread has allocated. Under valgrind, which has operators of its own, it stays 0.
std::size_t allocated() noexcept;

// Lets this thread's next `count` allocations pass, and has all fail that follow, while it lives.
class Refusing {
public:
    explicit Refusing(std::size_t count) noexcept;
    Refusing(const Refusing &) = delete;
    Refusing &operator=(const Refusing &) = delete;
    ~Refusing();
};

#endif
