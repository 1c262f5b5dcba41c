// Writes frames, one to a line, from a seed: half in the written form, half lightly varied (order of members, white
// space, unlisted members, optional ones left out).
//
//     generate COUNT SEED [FAULTY]
//
// FAULTY of 100 frames are made wrong in a way that every reader of the bench can tell. Without it all are frames.
#include <cstdint>
#include <cstdio>
#include <cstdlib>
#include <string>
#include <utility>
#include <vector>

struct Random {
    uint64_t state;

    uint64_t below(uint64_t limit) {
        state += 0x9E3779B97F4A7C15;
        uint64_t mixed = (state ^ (state >> 30)) * 0xBF58476D1CE4E5B9;
        mixed = (mixed ^ (mixed >> 27)) * 0x94D049BB133111EB;
        return (mixed ^ (mixed >> 31)) % limit;
    }

    bool one_in(uint64_t many) { return below(many) == 0; }
};

static Random chance;

template <class... Values> static std::string format(const char *form, Values... values) {
    char text[128];
    snprintf(text, sizeof text, form, values...);
    return text;
}

// A gap where white space may stand.
static std::string gap(bool varied) {
    if (!varied || !chance.one_in(4))
        return "";
    return chance.one_in(8) ? "\t" : std::string(1 + chance.below(2), ' ');
}

using Members = std::vector<std::pair<std::string, std::string>>;

static std::string object(Members members, bool varied) {
    if (varied)
        for (size_t last = members.size(); last > 1; last--)
            std::swap(members[last - 1], members[chance.below(last)]);
    std::string text = "{";
    for (size_t n = 0; n < members.size(); n++) {
        text += (n ? "," : "") + gap(varied) + '"' + members[n].first + "\":" + gap(varied);
        text += members[n].second + gap(varied);
    }
    return text + "}";
}

static std::string quoted(const std::string &text) { return '"' + text + '"'; }

static std::string random_time() {
    return format("20%02d-%02d-%02dT%02d:%02d:%02dZ", int(chance.below(100)), int(1 + chance.below(12)),
                  int(1 + chance.below(28)), int(chance.below(24)), int(chance.below(60)), int(chance.below(60)));
}

static const char *const kinds[] = {"Started", "Updated", "Ended"};
static const char *const reasons[] = {"CablePluggedIn", "MeterValuePeriodic", "EVDeparted"};

struct Frame {
    std::string id, transaction, name = "TransactionEvent";
    Members payload, info, meter, sample;
    bool varied, metered;

    std::string text() const {
        Members members = payload;
        members.push_back({"transactionInfo", object(info, varied)});
        if (metered) {
            Members within = meter;
            within.push_back({"sampledValue", "[" + object(sample, varied) + "]"});
            members.push_back({"meterValue", "[" + object(within, varied) + "]"});
        }
        return "[" + gap(varied) + "2," + gap(varied) + quoted(id) + "," + gap(varied) + quoted(name) + "," +
               gap(varied) + object(members, varied) + gap(varied) + "]";
    }
};

static Frame random_frame() {
    Frame frame;
    int kind = chance.below(8) ? 1 : chance.one_in(2) ? 0 : 2;
    int number = kind == 0 ? 0 : 1 + chance.below(chance.one_in(4) ? 9999 : 99);
    frame.varied = chance.one_in(2);
    frame.metered = kind != 1 || !chance.one_in(8);
    frame.transaction = format("%05d-%08d", int(chance.below(65536)), int(1 + chance.below(99999999)));
    frame.id = frame.transaction + format("-%04d-%02d", number, int(1 + chance.below(20)));
    std::string time = quoted(random_time());
    frame.payload = {{"eventType", quoted(kinds[kind])},
                     {"timestamp", time},
                     {"triggerReason", quoted(reasons[chance.below(3)])},
                     {"seqNo", std::to_string(number)}};
    if (!frame.varied || !chance.one_in(3))
        frame.payload.push_back({"offline", chance.one_in(4) ? "true" : "false"});
    frame.info = {{"transactionId", quoted(frame.transaction)}};
    frame.meter = {{"timestamp", time}};
    frame.sample = {{"value", std::to_string(chance.below(chance.one_in(4) ? 1000000001 : 100000))}};
    if (!frame.varied || !chance.one_in(3))
        frame.sample.push_back({"measurand", quoted("Energy.Active.Import.Register")});
    if (frame.varied && chance.one_in(4)) {
        frame.payload.push_back({"evse", "{\"id\":1,\"connectorId\":2}"});
        frame.sample.push_back({"unitOfMeasure", "{\"unit\":\"Wh\",\"multiplier\":0}"});
        frame.info.push_back({"chargingState", "\"Charging\""});
    }
    return frame;
}

// A text that is no frame: too long, cut off, another call, a member doubled or missing, a value that is wrong.
static std::string faulty(Frame frame) {
    switch (chance.below(8)) {
    case 0: return frame.text() + std::string(1024, ' ');
    case 1: return frame.text().substr(0, 1 + chance.below(200));
    case 2: frame.name = "Heartbeat"; break;
    case 3: frame.payload.push_back(frame.payload[0]); break;
    case 4: frame.payload.erase(frame.payload.begin() + chance.below(4)); break;
    case 5: frame.payload[1].second = quoted("2025-02-29T12:00:00Z"); break;
    case 6: frame.payload[3].second = "10000"; break;
    default: frame.id.replace(20, 2, "21"); break;
    }
    return frame.text();
}

int main(int count, char **words) {
    if (count < 3)
        return 2;
    uint64_t frames = strtoull(words[1], nullptr, 10);
    uint64_t share = count > 3 ? strtoull(words[3], nullptr, 10) : 0;
    chance.state = strtoull(words[2], nullptr, 10);
    for (uint64_t n = 0; n < frames; n++) {
        Frame frame = random_frame();
        puts((chance.below(100) < share ? faulty(frame) : frame.text()).c_str());
    }
    return 0;
}
