// The readers over RapidJSON: its tree and its events, both in place over a copy of the text. Copying is part of the
// reading, since the bytes are changed by it. All memory is reused.
#include "readers.h"
#include <rapidjson/document.h>
#include <rapidjson/memorystream.h>
#include <rapidjson/reader.h>

using namespace rapidjson;

static char copy[longest + 1];

static char *copied(const char *text, size_t length) {
    memcpy(copy, text, length);
    copy[length] = 0;
    return copy;
}

namespace tree {

static bool string(const Value &item, std::string_view &text) {
    if (!item.IsString())
        return false;
    text = std::string_view(item.GetString(), item.GetStringLength());
    return true;
}

static bool natural(const Value &item, uint64_t &number) {
    if (!item.IsUint64())
        return false;
    number = item.GetUint64();
    return true;
}

static std::string_view key(const Value::Member &member) {
    return std::string_view(member.name.GetString(), member.name.GetStringLength());
}

// Whether it is an array of one element, an object.
static bool only(const Value &item) { return item.IsArray() && item.Size() == 1 && item[0].IsObject(); }

static bool sample(const Value &object, Found &found) {
    Names names;
    std::string_view text;
    for (auto &field : object.GetObject()) {
        Name name = sample_name(key(field));
        if (names.again(name) || (name == value && !natural(field.value, found.value)) ||
            (name == measurand && !(string(field.value, text) && text == energy)))
            return false;
    }
    found.metered = true;
    return !names.lack(value);
}

static bool meter(const Value &object, Found &found) {
    Names names;
    for (auto &field : object.GetObject()) {
        Name name = meter_name(key(field));
        if (names.again(name) || (name == sampled_value && !(only(field.value) && sample(field.value[0], found))))
            return false;
    }
    return !names.lack(sampled_value);
}

static bool info(const Value &object, Found &found) {
    Names names;
    for (auto &field : object.GetObject()) {
        Name name = info_name(key(field));
        if (names.again(name) || (name == transaction_id && !string(field.value, found.transaction)))
            return false;
    }
    return !names.lack(transaction_id);
}

static bool member(const Value::Member &field, Found &found) {
    Name name = payload_name(key(field));
    const Value &item = field.value;
    if (found.names.again(name))
        return false;
    if (std::string_view *text = text_under(name, found))
        return string(item, *text);
    switch (name) {
    case seq_no: return natural(item, found.number);
    case offline: found.offline = item.IsTrue(); return item.IsBool();
    case transaction_info: return item.IsObject() && info(item, found);
    case meter_value: return only(item) && meter(item[0], found);
    default: return true;
    }
}

} // namespace tree

bool read_rapidjson_dom(const char *text, size_t length, Transmission &sent) {
    using Pool = MemoryPoolAllocator<>;
    static char values[64 * 1024], stack[16 * 1024];
    Pool value_pool(values, sizeof values), stack_pool(stack, sizeof stack);
    if (length > longest)
        return false;
    GenericDocument<UTF8<>, Pool, Pool> root(&value_pool, sizeof stack / 2, &stack_pool);
    root.ParseInsitu(copied(text, length));
    Found found;
    std::string_view action;
    uint64_t type;
    if (root.HasParseError() || !root.IsArray() || root.Size() != 4 || !tree::natural(root[0], type) || type != 2 ||
        !tree::string(root[1], found.id) || !tree::string(root[2], action) || action != call || !root[3].IsObject())
        return false;
    for (auto &field : root[3].GetObject())
        if (!tree::member(field, found))
            return false;
    return lawful(found, sent);
}

namespace events {

enum class In { nothing, frame, payload, info, meters, meter, samples, sample };

// Hears the events of one text. Where it stands is told by `in` and the count of elements; `skipped` arrays and objects
// are open inside a member that is not read.
struct Handler : BaseReaderHandler<UTF8<>, Handler> {
    In in = In::nothing;
    Name name = unlisted;
    unsigned skipped = 0, place = 0, elements = 0;
    Names names;
    Found found;

    bool reads() { return skipped == 0 && !(name == unlisted && in != In::frame && in != In::nothing); }

    bool Default() { return !reads(); }

    bool Bool(bool truth) {
        if (!reads())
            return true;
        found.offline = truth;
        return in == In::payload && name == offline;
    }

    bool Uint64(uint64_t number) {
        if (!reads())
            return true;
        if (in == In::frame)
            return place++ == 0 && number == 2;
        if (in == In::payload && name == seq_no)
            found.number = number;
        else if (in == In::sample && name == value)
            found.value = number;
        else
            return false;
        return true;
    }

    bool Uint(unsigned number) { return Uint64(number); }

    bool String(const char *bytes, SizeType length, bool) {
        if (!reads())
            return true;
        std::string_view text(bytes, length);
        if (in == In::frame) {
            if (place == 1)
                found.id = text;
            return place == 1 || place == 2 ? (place++ == 1 || text == call) : false;
        }
        if (std::string_view *place_for = text_under(name, found)) {
            *place_for = text;
            return true;
        }
        switch (name) {
        case transaction_id: found.transaction = text; return true;
        case measurand: return text == energy;
        default: return false;
        }
    }

    bool Key(const char *bytes, SizeType length, bool) {
        if (skipped)
            return true;
        std::string_view text(bytes, length);
        switch (in) {
        case In::payload: name = payload_name(text); return !found.names.again(name);
        case In::info: name = info_name(text); break;
        case In::meter: name = meter_name(text); break;
        default: name = sample_name(text); break;
        }
        return !names.again(name);
    }

    bool skip() {
        skipped++;
        return true;
    }

    bool StartObject() {
        if (!reads())
            return skip();
        if (in == In::frame && place++ == 3)
            in = In::payload;
        else if (in == In::payload && name == transaction_info)
            in = In::info;
        else if (in == In::meters && elements++ == 0)
            in = In::meter;
        else if (in == In::samples && elements++ == 0)
            in = In::sample;
        else
            return false;
        names = Names();
        return true;
    }

    bool EndObject(SizeType) {
        if (skipped) {
            skipped--;
            return true;
        }
        switch (in) {
        case In::payload: in = In::frame; return true;
        case In::info: in = In::payload; return !names.lack(transaction_id);
        case In::meter: in = In::meters; name = meter_value; return !names.lack(sampled_value);
        default: in = In::samples; name = sampled_value; found.metered = true; return !names.lack(value);
        }
    }

    bool StartArray() {
        if (!reads())
            return skip();
        if (in == In::nothing)
            in = In::frame;
        else if (in == In::payload && name == meter_value)
            in = In::meters;
        else if (in == In::meter && name == sampled_value)
            in = In::samples;
        else
            return false;
        elements = 0;
        return true;
    }

    bool EndArray(SizeType count) {
        if (skipped) {
            skipped--;
            return true;
        }
        if (in == In::frame)
            return count == 4;
        if (in == In::samples) {
            in = In::meter;
            names.met = sampled_value;
        } else {
            in = In::payload;
        }
        return count == 1;
    }
};

} // namespace events

bool read_rapidjson_sax(const char *text, size_t length, Transmission &sent) {
    static Reader reader;
    if (length > longest)
        return false;
    events::Handler handler;
    InsituStringStream stream(copied(text, length));
    return reader.Parse<kParseInsituFlag>(stream, handler) && lawful(handler.found, sent);
}
