/* Measures what the C++ headers add to the calls of C. This is C++ and no part of what is proved.
 *
 *     values PACKETS            prints a line for each measurement on one thread: its name, nanoseconds a packet by C and by C++
 *     values --threads PACKETS  prints a line for each number of producers: millions of packets a second by C and by C++
 *     values --once NAME PACKETS  runs one of these once, for callgrind: c, Router, Carrier, live-c or LiveRouter
 *
 * A packet is offered to one of 8 senders, and pulled from a DRRSched over their queues. By C its token is a number; by C++ its value is a number in
 * a std::unique_ptr that was allocated before, and that goes round. */
#include "clickpull.hpp"
#include "measure.h"

#include <cstdlib>
#include <cstring>
#include <memory>
#include <string>
#include <thread>
#include <vector>

namespace {

constexpr std::uint32_t SENDERS = 8, ROOM = 1024, LENGTH = 100;
constexpr std::size_t BATCH = 64;

using Value = std::unique_ptr<std::uint64_t>;

void need(bool holds, const char *what) {
    if (!holds) {
        std::fprintf(stderr, "values: %s\n", what);
        std::exit(1);
    }
}

std::string tree() {
    std::string text = "top :: DRRSched(1500); link :: ToDevice(eth0); top -> link; ";
    for (std::uint32_t i = 0; i < SENDERS; i++) {
        const std::string n = std::to_string(i);
        text += "s" + n + " :: Sender(" + n + "); q" + n + " :: Queue(2048); s" + n + " -> q" + n + " -> [" + n + "] top; ";
    }
    return text;
}

/* A router on one thread, by C, by Router, and by Carrier: a packet of each sender, and then all pulls. */

void offer_and_pull(clk_router &router, std::uint64_t packets) {
    clk_offered offered;
    clk_packet packet;
    for (std::uint64_t done = 0; done < packets; done += SENDERS) {
        for (std::uint32_t i = 0; i < SENDERS; i++)
            need(clk_offer(&router, i, LENGTH, &offered) == CLK_OK, "no offer");
        for (std::uint32_t came = 0; came < SENDERS;)
            came += clk_pull(&router, 0, 0, &packet) == CLK_OK;
    }
}

void offer_and_pull(clickpull::Router &router, std::uint64_t packets) {
    for (std::uint64_t done = 0; done < packets; done += SENDERS) {
        for (std::uint32_t i = 0; i < SENDERS; i++)
            need(router.offer(i, LENGTH).accepted, "no offer");
        for (std::uint32_t came = 0; came < SENDERS;)
            came += router.pull(0, 0).has_value();
    }
}

/* The values are those that came out of the round before. */
void offer_and_pull(clickpull::Carrier<Value> &router, std::uint64_t packets) {
    std::vector<Value> values;
    for (std::uint32_t i = 0; i < SENDERS; i++)
        values.push_back(std::make_unique<std::uint64_t>(i));
    for (std::uint64_t done = 0; done < packets; done += SENDERS) {
        for (std::uint32_t i = 0; i < SENDERS; i++)
            need(router.offer(i, LENGTH, std::move(values[i])).accepted(), "no offer");
        for (std::uint32_t came = 0; came < SENDERS;)
            if (auto it = router.pull(0, 0))
                values[came++] = std::move(it->value);
    }
}

/* A live router on one thread. */

struct OfC {
    clk_live live = CLK_NO_LIVE;
    clk_inlet inlets[SENDERS];

    OfC() {
        const std::string text = tree();
        need(clk_live_open(text.data(), text.size(), ROOM, &live, nullptr) == CLK_OK, "no router");
        for (std::uint32_t i = 0; i < SENDERS; i++)
            need(clk_live_inlet(&live, i, &inlets[i]) == CLK_OK, "no inlet");
    }

    OfC(const OfC &) = delete;
    OfC &operator=(const OfC &) = delete;

    ~OfC() {
        for (clk_inlet &it : inlets)
            clk_inlet_close(&it);
        clk_live_close(&live);
    }
};

struct OfCpp {
    clickpull::LiveRouter<Value> live{tree(), ROOM};
    std::vector<clickpull::Inlet<Value>> inlets;

    OfCpp() {
        for (std::uint32_t i = 0; i < SENDERS; i++)
            inlets.push_back(live.inlet(i));
    }
};

/* Takes what waits, and pulls as many packets. Returns how many, and hands each token to `each`. */
template <class Each> std::size_t pass_on(OfC &of, Each each) {
    clk_taken taken[BATCH];
    clk_emitted emitted;
    std::size_t given;
    clk_live_take_in(&of.live, BATCH, taken, BATCH, &given);
    for (std::size_t came = 0; came < given;)
        if (clk_live_pull(&of.live, 0, 0, &emitted) == CLK_OK) {
            each(emitted.token);
            came++;
        }
    return given;
}

template <class Each> std::size_t pass_on(OfCpp &of, Each each) {
    const std::size_t given = of.live.take_in(BATCH, BATCH, [](const auto &) {});
    for (std::size_t came = 0; came < given;)
        if (auto it = of.live.pull(0, 0)) {
            each(std::move(it->value));
            came++;
        }
    return given;
}

void offer_and_pull(OfC &of, std::uint64_t packets) {
    std::uint64_t tokens[SENDERS] = {};
    for (std::uint64_t done = 0; done < packets; done += SENDERS) {
        for (std::uint32_t i = 0; i < SENDERS; i++)
            need(clk_inlet_offer(&of.inlets[i], LENGTH, tokens[i], nullptr) == CLK_OK, "no offer");
        std::size_t came = 0;
        need(pass_on(of, [&](std::uint64_t token) { tokens[came++] = token; }) == SENDERS, "packets are lost");
    }
}

void offer_and_pull(OfCpp &of, std::uint64_t packets) {
    std::vector<Value> values;
    for (std::uint32_t i = 0; i < SENDERS; i++)
        values.push_back(std::make_unique<std::uint64_t>(i));
    for (std::uint64_t done = 0; done < packets; done += SENDERS) {
        for (std::uint32_t i = 0; i < SENDERS; i++)
            need(of.inlets[i].offer(LENGTH, std::move(values[i])).has_value(), "no offer");
        std::size_t came = 0;
        need(pass_on(of, [&](Value value) { values[came++] = std::move(value); }) == SENDERS, "packets are lost");
    }
}

template <class Of> double alone(Of &of, std::uint64_t packets) {
    return nanoseconds([](void *at, std::uint64_t count) { offer_and_pull(*static_cast<Of *>(at), count); }, &of, packets);
}

/* A live router, and producers on threads. Each producer has as many of the senders as the others. By C++ a value is a number: what a heap takes is not
 * measured. */

void pause_for_a_while() {
    for (volatile unsigned i = 0; i < 200; i = i + 1)
        ;
}

bool is_offered(clk_inlet &inlet, std::uint64_t token) {
    return clk_inlet_offer(&inlet, LENGTH, token, nullptr) == CLK_OK;
}

bool is_offered(clickpull::Inlet<std::uint64_t> &inlet, std::uint64_t value) {
    return inlet.offer(LENGTH, std::move(value)).has_value();
}

template <class Inlet> void produce(Inlet *inlets, std::uint32_t senders, std::uint64_t packets) {
    for (std::uint64_t i = 0; i < packets; i++)
        while (!is_offered(inlets[i % senders], i))
            pause_for_a_while();
}

/* Millions of packets a second that `pass` passes on, which returns how many it did. */
template <class Inlet, class Pass> double rate(Inlet *inlets, std::uint32_t producers, std::uint64_t packets, Pass pass) {
    const double start = seconds();
    std::vector<std::thread> threads;
    for (std::uint32_t i = 0; i < producers; i++)
        threads.emplace_back(produce<Inlet>, inlets + i * SENDERS / producers, SENDERS / producers, packets / producers);
    std::uint64_t came = 0;
    while (came < packets / producers * producers)
        came += pass();
    const double taken = seconds() - start;
    for (std::thread &it : threads)
        it.join();
    return static_cast<double>(came) / taken / 1e6;
}

double rate_of_c(std::uint32_t producers, std::uint64_t packets) {
    OfC of;
    std::uint64_t sum = 0;
    return rate(of.inlets, producers, packets, [&] { return pass_on(of, [&](std::uint64_t token) { sum += token; }); });
}

double rate_of_cpp(std::uint32_t producers, std::uint64_t packets) {
    clickpull::LiveRouter<std::uint64_t> live(tree(), ROOM);
    std::vector<clickpull::Inlet<std::uint64_t>> inlets;
    for (std::uint32_t i = 0; i < SENDERS; i++)
        inlets.push_back(live.inlet(i));
    std::uint64_t sum = 0;
    return rate(inlets.data(), producers, packets, [&] {
        const std::size_t given = live.take_in(BATCH, BATCH, [](const auto &) {});
        for (std::size_t came = 0; came < given;)
            came += live.pull_many(0, 0, given - came, [&](auto it) { sum += it.value; });
        return given;
    });
}

template <class Of> void once(std::uint64_t packets) {
    if constexpr (std::is_default_constructible_v<Of>) {
        Of of;
        offer_and_pull(of, packets);
    } else {
        Of of(tree());
        offer_and_pull(of, packets);
    }
}

void once_in_c(std::uint64_t packets) {
    clickpull::Router router(tree());
    offer_and_pull(*router.c(), packets);
}

const struct {
    const char *name;
    void (*run)(std::uint64_t packets);
} ONCE[] = {
    {"c", once_in_c},        {"Router", once<clickpull::Router>}, {"Carrier", once<clickpull::Carrier<Value>>},
    {"live-c", once<OfC>}, {"LiveRouter", once<OfCpp>},
};

void run_once(const std::string &name, std::uint64_t packets) {
    for (const auto &it : ONCE)
        if (name == it.name)
            return it.run(packets);
    need(false, "has no measurement of this name");
}

void print_alone(std::uint64_t packets) {
    const std::string text = tree();
    clickpull::Router router(text);
    clickpull::Carrier<Value> carrier(text);
    const double of_c = alone(*router.c(), packets);
    std::printf("an offer and a pull, Router\t%.1f\t%.1f\n", of_c, alone(router, packets));
    std::printf("an offer and a pull, Carrier\t%.1f\t%.1f\n", of_c, alone(carrier, packets));
    OfC c;
    OfCpp cpp;
    const double live = alone(c, packets);
    std::printf("an offer, a take and a pull, LiveRouter\t%.1f\t%.1f\n", live, alone(cpp, packets));
}

void print_threads(std::uint64_t packets) {
    for (std::uint32_t producers = 1; producers <= 4; producers *= 2) {
        double most[2] = {0, 0};
        for (int round = 0; round < ROUNDS; round++) {
            most[0] = std::max(most[0], rate_of_c(producers, packets));
            most[1] = std::max(most[1], rate_of_cpp(producers, packets));
        }
        std::printf("%u\t%.1f\t%.1f\n", producers, most[0], most[1]);
    }
}

} // namespace

int main(int count, char **words) {
    const std::string word = count > 2 ? words[1] : "";
    const std::uint64_t packets = count > 1 ? std::strtoull(words[count - 1], nullptr, 10) : 0;
    if (count == 2)
        print_alone(packets);
    else if (count == 3 && word == "--threads")
        print_threads(packets);
    else if (count == 4 && word == "--once")
        run_once(words[2], packets);
    else
        need(false, "wants PACKETS, --threads PACKETS, or --once NAME PACKETS");
    return 0;
}
