// What the tests of the C++ header share. They stand outside what is proved.
#ifndef CHECK_HPP
#define CHECK_HPP

#include "clickpull.hpp"

#include <atomic>
#include <cstdint>
#include <cstdio>
#include <utility>

inline std::atomic<int> checked{0}, failed{0};

// Says where a check fails, and goes on. Threads check too.
inline void check(bool holds, const char *it, const char *file, int line) {
    checked++;
    if (!holds) {
        failed++;
        std::fprintf(stderr, "%s:%d: it doesn't hold: %s\n", file, line, it);
    }
}

#define CHECK(IT) check((IT), #IT, __FILE__, __LINE__)

// The status with which a call throws an Error; CLK_OK where it throws none.
template <class Call> clk_status thrown_by(Call call) {
    try {
        call();
    } catch (const clickpull::Error &it) {
        return it.status();
    }
    return CLK_OK;
}

inline bool is_packet(const clickpull::Packet &packet, unsigned sender, unsigned number, unsigned length) {
    return packet.sender == sender && packet.number == number && packet.length == length;
}

// A value that is moved and not copied. It counts how many objects of its kind there are, and how many of them hold a number, which moves
// on with the value.
class Counted {
public:
    explicit Counted(std::uint64_t number) : number_(number), holds_(true) {
        objects++;
        values++;
    }

    Counted(Counted &&other) noexcept : number_(other.number_), holds_(std::exchange(other.holds_, false)) { objects++; }

    Counted &operator=(Counted &&other) noexcept {
        values -= holds_;
        number_ = other.number_;
        holds_ = std::exchange(other.holds_, false);
        return *this;
    }

    ~Counted() {
        values -= holds_;
        objects--;
    }

    bool is(std::uint64_t number) const noexcept { return holds_ && number_ == number; }
    bool holds() const noexcept { return holds_; }
    std::uint64_t number() const noexcept { return number_; }

    static inline std::atomic<long> objects{0}, values{0};

private:
    std::uint64_t number_;
    bool holds_;
};

// Checks at its end that as many objects were destroyed as were made.
class NoneLeft {
public:
    ~NoneLeft() { CHECK(Counted::objects == 0 && Counted::values == 0); }
};

// The tests, a function a subject.
void test_router();
void test_carrier();
void test_record();
void test_cases(const char *path);
void test_live();
void test_live_model();
void test_live_threads(std::uint32_t packets);

#endif
