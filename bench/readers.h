// What the readers of the bench share: what they find, and whether it is a lawful transmission. Each reader finds the
// parts with its own library. The checks of the parts are the same for all but this project's reader, which has its
// own.
#pragma once
#include <cstddef>
#include <cstdint>
#include <cstring>
#include <string_view>

constexpr size_t longest = 1024;

struct Transmission {
    uint64_t station, session, number, attempt, kind, time, reason, offline, metered, value;

    uint64_t sum() const {
        uint64_t sum = station;
        for (uint64_t part : {session, number, attempt, kind, time, reason, offline, metered, value})
            sum = sum * 1000003 + part;
        return sum;
    }
};

// The read names, a bit each.
enum Name : unsigned {
    unlisted = 0,
    event_type = 1,
    timestamp = 2,
    trigger_reason = 4,
    seq_no = 8,
    offline = 16,
    transaction_info = 32,
    meter_value = 64,
    transaction_id = 128,
    sampled_value = 256,
    value = 512,
    measurand = 1024,
};

constexpr unsigned required_in_payload = event_type | timestamp | trigger_reason | seq_no | transaction_info;

// The payload's name for which the test holds.
template <class Is> Name payload_name_if(Is is) {
    if (is("eventType")) return event_type;
    if (is("timestamp")) return timestamp;
    if (is("triggerReason")) return trigger_reason;
    if (is("seqNo")) return seq_no;
    if (is("offline")) return offline;
    if (is("transactionInfo")) return transaction_info;
    if (is("meterValue")) return meter_value;
    return unlisted;
}

inline Name payload_name(std::string_view name) {
    return payload_name_if([&](const char *other) { return name == other; });
}

inline Name info_name(std::string_view name) { return name == "transactionId" ? transaction_id : unlisted; }

inline Name meter_name(std::string_view name) { return name == "sampledValue" ? sampled_value : unlisted; }

inline Name sample_name(std::string_view name) {
    return name == "value" ? value : name == "measurand" ? measurand : unlisted;
}

// The names met so far. A read name may be met once.
struct Names {
    unsigned met = 0;

    bool again(Name name) {
        bool doubled = met & name;
        met |= name;
        return doubled;
    }

    bool lack(unsigned required) const { return (met & required) != required; }
};

struct Found {
    std::string_view id, kind, time, reason, transaction;
    uint64_t number = 0, value = 0;
    bool offline = false, metered = false;
    Names names;
};

// Where the string under a name of the payload goes; nowhere for a name that takes no string.
inline std::string_view *text_under(Name name, Found &found) {
    switch (name) {
    case event_type: return &found.kind;
    case timestamp: return &found.time;
    case trigger_reason: return &found.reason;
    default: return nullptr;
    }
}

constexpr std::string_view call = "TransactionEvent";
constexpr std::string_view energy = "Energy.Active.Import.Register";

// Whether what was found is a lawful transmission, and which.
bool lawful(const Found &found, Transmission &sent);

using Read = bool (*)(const char *text, size_t length, Transmission &sent);

// Each is given a text with at least `after` readable bytes after it.
constexpr size_t after = 128;
bool read_makwirfa(const char *text, size_t length, Transmission &sent);
bool read_rapidjson_dom(const char *text, size_t length, Transmission &sent);
bool read_rapidjson_sax(const char *text, size_t length, Transmission &sent);
bool read_simdjson_ondemand(const char *text, size_t length, Transmission &sent);
bool read_simdjson_dom(const char *text, size_t length, Transmission &sent);
bool read_cjson(const char *text, size_t length, Transmission &sent);
