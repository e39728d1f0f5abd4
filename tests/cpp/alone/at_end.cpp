// Tests offers of a Carrier for a sender that has no numbers left: at_end
//
// A sender comes to its end after 4,294,967,295 offers. Here a function stands between the header and the library's offer, and says that
// the end has come. This program stands outside what is proved.
#define clk_router_offer offered_unless_at_end
#include "../check.hpp"
#undef clk_router_offer

#include <memory>

extern "C" std::uint32_t clk_router_offer(clk_router *router, std::uint32_t sender, std::uint32_t length, clk_offered *offered);

namespace {

bool is_at_end = false;

using Own = std::unique_ptr<Counted>;

// An offer that the library refuses to make has put its value into the Carrier's list before: the value comes back from there.
void an_offer_at_the_end_leaves_the_value() {
    const NoneLeft none;
    clickpull::Carrier<Own> carrier("a :: Sender(4); q :: Queue(3); d :: ToDevice(link); a -> q -> d;");
    CHECK(carrier.offer(4, 1, std::make_unique<Counted>(0)).accepted());
    auto value = std::make_unique<Counted>(1);
    is_at_end = true;
    CHECK(thrown_by([&] { (void)carrier.offer(4, 1, std::move(value)); }) == CLK_AT_END);
    CHECK(value && value->is(1) && carrier.kept(4) == 1 && carrier.router().left(0) == 1);
    is_at_end = false;
    CHECK(carrier.offer(4, 1, std::move(value)).accepted() && !value && carrier.kept(4) == 2);
    CHECK(carrier.pull(0, 0)->value->is(0) && carrier.pull(0, 0)->value->is(1));
}

} // namespace

extern "C" std::uint32_t offered_unless_at_end(clk_router *router, std::uint32_t sender, std::uint32_t length, clk_offered *offered) {
    return is_at_end ? static_cast<std::uint32_t>(CLK_AT_END) : clk_router_offer(router, sender, length, offered);
}

int main() {
    an_offer_at_the_end_leaves_the_value();
    std::printf("%d checks, %d failed\n", checked.load(), failed.load());
    return failed != 0;
}
