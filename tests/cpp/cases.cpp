// Carries out the table of cases that all bindings share (tests/bindings/cases has the format), over Router, Carrier and LiveRouter. It
// stands outside what is proved.
#include "check.hpp"

#include <fstream>
#include <map>
#include <memory>
#include <sstream>
#include <string>
#include <vector>

namespace {

using Numbers = std::vector<std::uint64_t>;

std::uint32_t narrow(std::uint64_t number) {
    return static_cast<std::uint32_t>(number);
}

std::uint16_t device_of(const Numbers &numbers) {
    return static_cast<std::uint16_t>(numbers.at(0));
}

std::string shown(const clickpull::Packet &it) {
    return std::to_string(it.sender) + "/" + std::to_string(it.number) + "/" + std::to_string(it.length);
}

std::string shown(const clickpull::Total &it) {
    return std::to_string(it.packets) + "/" + std::to_string(it.bytes);
}

std::string spaced(const clickpull::Packet &it) {
    return std::to_string(it.sender) + " " + std::to_string(it.number) + " " + std::to_string(it.length);
}

// The name of a status without CLK_.
std::string name_of(clk_status status) {
#define NAMED(IT) {CLK_##IT, #IT}
    static const std::map<clk_status, std::string> NAMES = {
        NAMED(SHUT), NAMED(UNKNOWN_SENDER), NAMED(UNKNOWN_DEVICE), NAMED(BAD_LENGTH), NAMED(AT_END),
        NAMED(UNKNOWN_QUEUE), NAMED(BAD_ROOM), NAMED(HANDED_OUT), NAMED(RECLAIMED),
    };
#undef NAMED
    return NAMES.at(status);
}

// Parts with something between them, or "nothing".
std::string joined(const std::vector<std::string> &parts, const char *between) {
    std::string all;
    for (const std::string &it : parts)
        all += (all.empty() ? "" : between) + it;
    return parts.empty() ? "nothing" : all;
}

std::string told(const clickpull::Drained &drained, const std::vector<std::string> &parts) {
    CHECK(drained.count == parts.size());
    return (drained.all ? "all" : "more") + (parts.empty() ? "" : " " + joined(parts, " "));
}

std::string at_moment(std::uint64_t moment, const clickpull::Packet &packet) {
    return std::to_string(moment) + ":" + shown(packet);
}

// The answer to a call that asks a router, whichever class it is of.
template <class Asked> std::string asked(const Asked &router, const std::string &call, const Numbers &numbers) {
    if (call == "moment")
        return std::to_string(router.moment(device_of(numbers)));
    if (call == "left")
        return std::to_string(router.left(device_of(numbers)));
    if (call == "due") {
        const auto due = router.due(device_of(numbers));
        return due ? std::to_string(*due) : "none";
    }
    // These two tell all there are, and nothing of a router that is shut.
    if (!router.is_open())
        throw clickpull::Error(CLK_SHUT);
    if (call == "account") {
        for (const auto &it : router.accounts())
            if (it.sender == numbers.at(0))
                return "offered " + shown(clickpull::Total{it.accepted.packets + it.refused.packets, it.accepted.bytes + it.refused.bytes}) + " accepted " +
                       shown(it.accepted) + " refused " + shown(it.refused) + " evicted " + shown(it.evicted) + " emitted " + shown(it.emitted);
        throw clickpull::Error(CLK_UNKNOWN_SENDER);
    }
    CHECK(call == "queue");
    const auto queues = router.queues();
    if (numbers.at(0) >= queues.size())
        throw clickpull::Error(CLK_UNKNOWN_QUEUE);
    const clickpull::Queue &it = queues[numbers[0]];
    return std::to_string(it.capacity) + " " + std::to_string(it.held) + " " + std::to_string(it.device) + " " + std::to_string(it.front_drop);
}

// The values that are with packets: each comes back with its packet, once.
class Values {
public:
    Counted next() { return Counted(tried_++); }

    void sent(std::uint32_t sender, std::uint32_t number) { CHECK(inside_.emplace(std::pair(sender, number), tried_ - 1).second); }

    void came_back(const clickpull::Packet &packet, const Counted &value) {
        const auto at = inside_.find({packet.sender, packet.number});
        CHECK(at != inside_.end() && value.is(at->second));
        if (at != inside_.end())
            inside_.erase(at);
    }

private:
    std::uint64_t tried_ = 0;
    std::map<std::pair<std::uint32_t, std::uint32_t>, std::uint64_t> inside_;
};

// The record of what a case has done, up to the first line that it can't have.
class Recorded {
public:
    void send(const clickpull::Packet &packet) {
        note([&] { record_.send(packet); });
    }

    void pulls(const Numbers &numbers, std::uint64_t count) {
        note([&] { record_.pulls(device_of(numbers), numbers.at(1), count); });
    }

    // The pulls of a call for many that emitted so many packets.
    void many(const Numbers &numbers, std::size_t emitted) { pulls(numbers, emitted < numbers.at(2) ? emitted + 1 : emitted); }

    // Makes a drain, and adds its pulls. Returns what it returns.
    template <class Of, class Drain> auto drain(const Of &router, const Numbers &numbers, Drain drain) {
        const std::uint64_t before = router.moment(device_of(numbers));
        const auto drained = drain();
        for (std::uint64_t moment = before + 1; moment <= router.moment(device_of(numbers)); moment++)
            note([&] { record_.pulls(device_of(numbers), moment); });
        return drained;
    }

    // Its lines. Throws if it couldn't have one of them.
    std::string told() const {
        if (status_ != CLK_OK)
            throw clickpull::Error(status_);
        std::vector<std::string> lines;
        std::istringstream text{std::string(record_.text())};
        for (std::string line; std::getline(text, line);)
            lines.push_back(line);
        CHECK(record_.lines() == lines.size());
        return joined(lines, "; ");
    }

private:
    template <class Add> void note(Add add) {
        if (status_ == CLK_OK)
            status_ = thrown_by(add);
    }

    clickpull::Record record_;
    clk_status status_ = CLK_OK;
};

// What carries out the calls of a case.
class Subject {
public:
    virtual ~Subject() = default;
    virtual void open(const std::string &tree) = 0;
    virtual std::string call(const std::string &name, const Numbers &numbers) = 0;

    std::string recorded() const { return record_.told(); }

protected:
    Recorded record_;
};

class OfRouter : public Subject {
public:
    void open(const std::string &tree) override { router_.emplace(tree); }

    std::string call(const std::string &name, const Numbers &numbers) override {
        if (name == "offer") {
            const auto it = router_->offer(narrow(numbers.at(0)), narrow(numbers.at(1)));
            record_.send(it.packet);
            if (it.evicted)
                return "evicting " + std::to_string(it.packet.number) + " " + spaced(*it.evicted);
            return (it.accepted ? "accepted " : "refused ") + std::to_string(it.packet.number);
        }
        if (name == "pull") {
            const auto it = router_->pull(device_of(numbers), numbers.at(1));
            record_.pulls(numbers, 1);
            return it ? "packet " + spaced(*it) : "none";
        }
        if (name == "pull_many") {
            std::vector<clickpull::Packet> packets(numbers.at(2));
            packets.resize(router_->pull_many(device_of(numbers), numbers[1], packets.data(), packets.size()));
            record_.many(numbers, packets.size());
            std::vector<std::string> parts;
            for (const auto &it : packets)
                parts.push_back(shown(it));
            return joined(parts, " ");
        }
        if (name == "drain")
            return drain(numbers);
        if (name == "shut") {
            router_->shut();
            return "ok";
        }
        return asked(*router_, name, numbers);
    }

private:
    std::string drain(const Numbers &numbers) {
        std::vector<clickpull::Departure> departures(numbers.at(2));
        const auto drained = record_.drain(
            *router_, numbers, [&] { return router_->drain(device_of(numbers), departures.data(), departures.size(), numbers[1]); });
        std::vector<std::string> parts;
        for (std::size_t i = 0; i < drained.count; i++)
            parts.push_back(at_moment(departures[i].moment, departures[i].packet));
        return told(drained, parts);
    }

    std::optional<clickpull::Router> router_;
};

// A Carrier has no call that shuts it: it is destroyed, and what is called afterwards is left out.
class OfCarrier : public Subject {
public:
    void open(const std::string &tree) override { carrier_.emplace(tree); }

    std::string call(const std::string &name, const Numbers &numbers) override {
        if (name == "shut")
            carrier_.reset();
        if (!carrier_)
            return name == "shut" ? "ok" : "error SHUT";
        if (name == "offer")
            return offer(narrow(numbers.at(0)), narrow(numbers.at(1)));
        std::vector<std::string> parts;
        const auto note = [&](auto it) {
            values_.came_back(it.packet, it.value);
            parts.push_back(name == "drain" ? at_moment(it.moment, it.packet) : shown(it.packet));
        };
        if (name == "pull") {
            auto it = carrier_->pull(device_of(numbers), numbers.at(1));
            record_.pulls(numbers, 1);
            if (!it)
                return "none";
            values_.came_back(it->packet, it->value);
            return "packet " + spaced(it->packet);
        }
        if (name == "pull_many") {
            CHECK(carrier_->pull_many(device_of(numbers), numbers.at(1), numbers.at(2), note) == parts.size());
            record_.many(numbers, parts.size());
            return joined(parts, " ");
        }
        if (name == "drain") {
            const auto drained = record_.drain(carrier_->router(), numbers,
                                               [&] { return carrier_->drain(device_of(numbers), note, numbers.at(1), numbers.at(2)); });
            return told(drained, parts);
        }
        return asked(carrier_->router(), name, numbers);
    }

private:
    std::string offer(std::uint32_t sender, std::uint32_t length) {
        auto it = carrier_->offer(sender, length, values_.next());
        record_.send(it.packet);
        values_.sent(sender, it.packet.number);
        if (it.refused)
            values_.came_back(it.packet, *it.refused);
        if (!it.evicted)
            return (it.refused ? "refused " : "accepted ") + std::to_string(it.packet.number);
        values_.came_back(it.evicted->packet, it.evicted->value);
        return "evicting " + std::to_string(it.packet.number) + " " + spaced(it.evicted->packet);
    }

    std::optional<clickpull::Carrier<Counted>> carrier_;
    Values values_;
};

class OfLiveRouter : public Subject {
public:
    explicit OfLiveRouter(std::uint32_t room) : room_(room) {}

    void open(const std::string &tree) override { live_.emplace(tree, room_); }

    std::string call(const std::string &name, const Numbers &numbers) override {
        if (name == "inlet" || name == "put" || name == "room" || name == "close")
            return of_inlet(name, numbers);
        if (name == "take" || name == "take_in" || name == "take_what_fits")
            return taken(name, numbers);
        if (name == "pull" || name == "pull_many" || name == "drain")
            return pulled(name, numbers);
        if (name == "ended")
            return live_->ended() ? "yes" : "no";
        if (name == "drained")
            return live_->drained() ? "yes" : "no";
        if (name == "shut") {
            live_->shut();
            return "ok";
        }
        return asked(*live_, name, numbers);
    }

private:
    std::string of_inlet(const std::string &name, const Numbers &numbers) {
        const std::uint32_t sender = narrow(numbers.at(0));
        if (name == "inlet") {
            inlets_.insert_or_assign(sender, live_->inlet(sender));
            return "ok";
        }
        auto &inlet = inlets_.at(sender);
        if (name == "put")
            return put(inlet, sender, narrow(numbers.at(1)));
        if (!inlet.is_open())
            return "error SHUT";
        if (name == "room")
            return std::to_string(inlet.room());
        inlet.close();
        return "ok";
    }

    std::string put(clickpull::Inlet<Counted> &inlet, std::uint32_t sender, std::uint32_t length) {
        Counted value = values_.next();
        std::optional<std::uint32_t> number;
        const clk_status status = thrown_by([&] { number = inlet.offer(length, std::move(value)); });
        CHECK(value.holds() == !number.has_value());
        if (status == CLK_SHUT)
            return "shut";
        if (status != CLK_OK)
            return "error " + name_of(status);
        if (!number)
            return "full";
        values_.sent(sender, *number);
        return "number " + std::to_string(*number);
    }

    std::string taken(const std::string &name, const Numbers &numbers) {
        std::vector<std::string> parts;
        const auto note = [&](auto it) {
            record_.send(it.packet);
            if (it.refused)
                values_.came_back(it.packet, *it.refused);
            if (it.evicted) {
                values_.came_back(it.evicted->packet, it.evicted->value);
                parts.push_back("evicting " + shown(it.evicted->packet) + " by " + shown(it.packet));
            } else
                parts.push_back((it.accepted() ? "accepted " : "refused ") + shown(it.packet));
        };
        std::size_t count;
        if (name == "take")
            count = live_->take(narrow(numbers.at(0)), numbers.at(1), note);
        else if (name == "take_in")
            count = live_->take_in(numbers.at(0), numbers.at(1), note);
        else
            count = live_->take_what_fits(numbers.at(0), numbers.at(1), note);
        CHECK(count == parts.size());
        return joined(parts, "; ");
    }

    std::string pulled(const std::string &name, const Numbers &numbers) {
        std::vector<std::string> parts;
        if (name == "drain") {
            const auto note = [&](auto it) {
                values_.came_back(it.packet, it.value);
                parts.push_back(at_moment(it.moment, it.packet));
            };
            const auto drained =
                record_.drain(*live_, numbers, [&] { return live_->drain(device_of(numbers), note, numbers.at(1), numbers.at(2)); });
            return told(drained, parts);
        }
        if (name == "pull_many") {
            const auto note = [&](auto it) {
                values_.came_back(it.packet, it.value);
                parts.push_back(shown(it.packet));
            };
            CHECK(live_->pull_many(device_of(numbers), numbers.at(1), numbers.at(2), note) == parts.size());
            record_.many(numbers, parts.size());
            return joined(parts, " ");
        }
        auto it = live_->pull(device_of(numbers), numbers.at(1));
        record_.pulls(numbers, 1);
        if (!it)
            return "none";
        values_.came_back(it->packet, it->value);
        return "packet " + spaced(it->packet);
    }

    std::uint32_t room_;
    std::optional<clickpull::LiveRouter<Counted>> live_;
    std::map<std::uint32_t, clickpull::Inlet<Counted>> inlets_;
    Values values_;
};

// A call of a case, and what it has to answer.
struct Step {
    std::string call, answer;
};

struct Case {
    std::string name, tree;
    std::optional<std::uint32_t> room;
    std::vector<Step> steps;
};

std::string unescaped(std::string text) {
    for (std::size_t at = 0; (at = text.find("\\n", at)) != std::string::npos;)
        text.replace(at, 2, "\n");
    return text;
}

std::vector<Case> cases_of(const char *path) {
    std::vector<Case> cases;
    std::ifstream file(path);
    for (std::string line; std::getline(file, line);) {
        if (line.empty() || line[0] == '#')
            continue;
        const std::string word = line.substr(0, line.find(' ')), rest = word.size() < line.size() ? line.substr(word.size() + 1) : "";
        const std::size_t arrow = line.find(" -> ");
        if (word == "case")
            cases.push_back({rest, "", std::nullopt, {}});
        else if (word == "tree")
            cases.back().tree = unescaped(rest);
        else if (word == "room" && arrow == std::string::npos)
            cases.back().room = narrow(std::stoull(rest));
        else
            cases.back().steps.push_back({line.substr(0, arrow), line.substr(arrow + 4)});
    }
    return cases;
}

std::string answer_of(Subject &subject, const Case &of, const std::string &call) {
    std::istringstream words(call);
    std::string name;
    words >> name;
    Numbers numbers;
    for (std::uint64_t it; words >> it;)
        numbers.push_back(it);
    try {
        if (name == "record")
            return subject.recorded();
        if (name != "open")
            return subject.call(name, numbers);
        subject.open(of.tree);
        return "ok";
    } catch (const clickpull::TextFault &it) {
        return "fault " + std::to_string(it.number()) + " " + it.name() + " " + std::to_string(it.offset()) + " " + std::to_string(it.line()) + " " +
               std::to_string(it.column());
    } catch (const clickpull::Error &it) {
        return "error " + name_of(it.status());
    }
}

// Up to the first wrong answer.
void carry_out(std::unique_ptr<Subject> subject, const Case &it) {
    const NoneLeft none;
    for (const Step &step : it.steps) {
        const std::string answer = answer_of(*subject, it, step.call);
        CHECK(answer == step.answer);
        if (answer != step.answer) {
            std::fprintf(stderr, "%s: %s -> %s, and not %s\n", it.name.c_str(), step.call.c_str(), step.answer.c_str(), answer.c_str());
            break;
        }
    }
    subject.reset();
}

} // namespace

void test_cases(const char *path) {
    const std::vector<Case> cases = cases_of(path);
    CHECK(cases.size() > 40);
    for (const Case &it : cases) {
        if (it.room) {
            carry_out(std::make_unique<OfLiveRouter>(*it.room), it);
            continue;
        }
        carry_out(std::make_unique<OfRouter>(), it);
        carry_out(std::make_unique<OfCarrier>(), it);
    }
}
