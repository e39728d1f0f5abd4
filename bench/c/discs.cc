/* Measures the two plainest queue discs of ns-3: nanoseconds a packet, of its enqueue and its dequeue together. This is C++ and no part of
 * what is proved.
 *
 *     discs PACKETS      prints a line for each setting: its name, one by one, in bursts of 32
 *
 * Each band holds 32 packets, and stays so: what was dequeued is enqueued again. The simulated clock stands. */
#include "measure.h"

#include <ns3/object-factory.h>
#include <ns3/packet.h>
#include <ns3/queue-disc.h>
#include <ns3/queue-item.h>
#include <ns3/simulator.h>
#include <ns3/socket.h>

#include <cstdint>
#include <cstdio>
#include <cstdlib>
#include <vector>

namespace {

constexpr unsigned FILL = 32;

// A packet, without a header of its own.
class Item : public ns3::QueueDiscItem {
public:
    explicit Item(std::uint32_t length) : QueueDiscItem(ns3::Create<ns3::Packet>(length), ns3::Address(), 0) {}

    void AddHeader() override {}
    bool Mark() override { return false; }
};

struct Setting {
    const char *name, *disc;
    unsigned bands;
};

const Setting SETTINGS[] = {
    {"FifoQueueDisc", "ns3::FifoQueueDisc", 1},
    {"PfifoFastQueueDisc, 3 bands busy", "ns3::PfifoFastQueueDisc", 3},
};

// Priorities of sockets that go to the three bands.
constexpr std::uint8_t PRIORITIES[] = {6, 0, 1};

void need(bool holds, const char *what) {
    if (!holds) {
        std::fprintf(stderr, "discs: %s\n", what);
        std::exit(1);
    }
}

void one_by_one(void *at, std::uint64_t packets) {
    auto *disc = static_cast<ns3::QueueDisc *>(at);
    for (; packets > 0; packets--) {
        const auto item = disc->Dequeue();
        need(item && disc->Enqueue(item), "a packet is dropped");
    }
}

void in_bursts(void *at, std::uint64_t packets) {
    auto *disc = static_cast<ns3::QueueDisc *>(at);
    std::vector<ns3::Ptr<ns3::QueueDiscItem>> burst(BURST);
    for (std::uint64_t done = 0; done < packets; done += BURST) {
        for (auto &item : burst)
            item = disc->Dequeue();
        for (const auto &item : burst)
            need(item && disc->Enqueue(item), "a packet is dropped");
    }
}

void fill(ns3::QueueDisc &disc, unsigned bands) {
    for (unsigned i = 0; i < bands * FILL; i++) {
        const auto item = ns3::Create<Item>(i % 2 == 0 ? 64 : 1500);
        ns3::SocketPriorityTag tag;
        tag.SetPriority(PRIORITIES[i % bands]);
        item->GetPacket()->AddPacketTag(tag);
        need(disc.Enqueue(item), "a packet is refused");
    }
}

void measure(const Setting &setting, std::uint64_t packets) {
    ns3::ObjectFactory factory(setting.disc);
    const auto disc = factory.Create<ns3::QueueDisc>();
    disc->Initialize();
    fill(*disc, setting.bands);
    const double one = nanoseconds(one_by_one, ns3::PeekPointer(disc), packets), many = nanoseconds(in_bursts, ns3::PeekPointer(disc), packets);
    std::printf("%s\t%.1f\t%.1f\n", setting.name, one, many);
    std::fflush(stdout);
    disc->Dispose();
}

} // namespace

int main(int argc, char **argv) {
    need(argc == 2, "usage: discs PACKETS");
    const std::uint64_t packets = std::strtoull(argv[1], nullptr, 10);
    for (const Setting &setting : SETTINGS)
        measure(setting, packets);
    ns3::Simulator::Destroy();
    return 0;
}
