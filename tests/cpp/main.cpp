// Runs the tests of the C++ headers, and says how many checks were made: status 1 where one failed. They stand outside what is proved.
//
//     tests CASES PACKETS   CASES is the table of cases, tests/bindings/cases; each sender on a thread sends so many PACKETS
#include "check.hpp"

#include <cstdlib>

int main(int count, char **words) {
    if (count != 3) {
        std::fprintf(stderr, "tests: wants CASES and PACKETS\n");
        return 2;
    }
    test_router();
    test_carrier();
    test_record();
    test_cases(words[1]);
    test_live();
    test_live_model();
    test_live_threads(static_cast<std::uint32_t>(std::strtoul(words[2], nullptr, 10)));
    std::printf("%d checks, %d failed\n", checked.load(), failed.load());
    return failed != 0;
}
