// The readers over simdjson: its On Demand interface, which does not check all of what it skips, and its tree.
#include "readers.h"
#include <simdjson.h>

using namespace simdjson;

namespace on_demand {

using ondemand::raw_json_string;

static Name name_in_payload(raw_json_string key) {
    return payload_name_if([&](const char *other) { return key.unsafe_is_equal(other); });
}

// Goes through an object in which one name is read, and must stand once.
template <class Take> static bool one_name(ondemand::object object, Name read, const char *called, Take take) {
    Names names;
    for (auto field : object) {
        raw_json_string key;
        if (field.key().get(key))
            return false;
        Name name = key.unsafe_is_equal(called) ? read : unlisted;
        if (names.again(name) || (name == read && !take(field.value())))
            return false;
    }
    return !names.lack(read);
}

static bool sample(ondemand::object object, Found &found) {
    Names names;
    for (auto field : object) {
        raw_json_string key;
        std::string_view text;
        if (field.key().get(key))
            return false;
        Name name = key.unsafe_is_equal("value") ? value : key.unsafe_is_equal("measurand") ? measurand : unlisted;
        if (names.again(name) || (name == value && field.value().get_uint64().get(found.value)) ||
            (name == measurand && (field.value().get_string().get(text) || text != energy)))
            return false;
    }
    found.metered = true;
    return !names.lack(value);
}

// Reads the object that is the one element of an array.
template <class Value> static bool only(Value item, bool (*read)(ondemand::object, Found &), Found &found) {
    ondemand::array array;
    size_t count = 0;
    if (item.get_array().get(array))
        return false;
    for (auto element : array) {
        ondemand::object object;
        if (count++ > 0 || element.get_object().get(object) || !read(object, found))
            return false;
    }
    return count == 1;
}

static bool meter(ondemand::object object, Found &found) {
    return one_name(object, sampled_value, "sampledValue", [&](auto item) { return only(item, sample, found); });
}

template <class Value> static bool info(Value item, Found &found) {
    ondemand::object object;
    return !item.get_object().get(object) && one_name(object, transaction_id, "transactionId", [&](auto id) {
        return !id.get_string().get(found.transaction);
    });
}

template <class Field> static bool member(Field field, Found &found) {
    raw_json_string key;
    if (field.key().get(key))
        return false;
    Name name = name_in_payload(key);
    if (found.names.again(name))
        return false;
    if (std::string_view *text = text_under(name, found))
        return !field.value().get_string().get(*text);
    switch (name) {
    case seq_no: return !field.value().get_uint64().get(found.number);
    case offline: return !field.value().get_bool().get(found.offline);
    case transaction_info: return info(field.value(), found);
    case meter_value: return only(field.value(), meter, found);
    default: return true;
    }
}

static bool payload(ondemand::object object, Found &found) {
    for (auto field : object)
        if (!member(field, found))
            return false;
    return true;
}

static bool element(size_t place, simdjson_result<ondemand::value> item, Found &found) {
    uint64_t type;
    std::string_view action;
    ondemand::object object;
    switch (place) {
    case 0: return !item.get_uint64().get(type) && type == 2;
    case 1: return !item.get_string().get(found.id);
    case 2: return !item.get_string().get(action) && action == call;
    case 3: return !item.get_object().get(object) && payload(object, found);
    default: return false;
    }
}

} // namespace on_demand

bool read_simdjson_ondemand(const char *text, size_t length, Transmission &sent) {
    static ondemand::parser parser;
    ondemand::document document;
    ondemand::array array;
    Found found;
    size_t place = 0;
    if (length > longest || parser.iterate(padded_string_view(text, length, length + after)).get(document) ||
        document.get_array().get(array))
        return false;
    for (auto item : array)
        if (!on_demand::element(place++, item, found))
            return false;
    return place == 4 && document.current_location().error() == OUT_OF_BOUNDS && lawful(found, sent);
}

namespace tree {

static bool only(dom::element item, dom::object &object) {
    dom::array array;
    return !item.get_array().get(array) && array.size() == 1 && !array.at(0).get_object().get(object);
}

static bool sample(dom::element list, Found &found) {
    Names names;
    dom::object object;
    std::string_view text;
    if (!only(list, object))
        return false;
    for (auto field : object) {
        Name name = sample_name(field.key);
        if (names.again(name) || (name == value && field.value.get_uint64().get(found.value)) ||
            (name == measurand && (field.value.get_string().get(text) || text != energy)))
            return false;
    }
    found.metered = true;
    return !names.lack(value);
}

static bool meter(dom::element list, Found &found) {
    Names names;
    dom::object object;
    if (!only(list, object))
        return false;
    for (auto field : object) {
        Name name = meter_name(field.key);
        if (names.again(name) || (name == sampled_value && !sample(field.value, found)))
            return false;
    }
    return !names.lack(sampled_value);
}

static bool info(dom::element item, Found &found) {
    Names names;
    dom::object object;
    if (item.get_object().get(object))
        return false;
    for (auto field : object) {
        Name name = info_name(field.key);
        if (names.again(name) || (name == transaction_id && field.value.get_string().get(found.transaction)))
            return false;
    }
    return !names.lack(transaction_id);
}

static bool member(dom::key_value_pair field, Found &found) {
    Name name = payload_name(field.key);
    if (found.names.again(name))
        return false;
    if (std::string_view *text = text_under(name, found))
        return !field.value.get_string().get(*text);
    switch (name) {
    case seq_no: return !field.value.get_uint64().get(found.number);
    case offline: return !field.value.get_bool().get(found.offline);
    case transaction_info: return info(field.value, found);
    case meter_value: return meter(field.value, found);
    default: return true;
    }
}

} // namespace tree

bool read_simdjson_dom(const char *text, size_t length, Transmission &sent) {
    static dom::parser parser;
    dom::array array;
    dom::object payload;
    uint64_t type;
    std::string_view action;
    Found found;
    if (length > longest || parser.parse(text, length, false).get_array().get(array) || array.size() != 4)
        return false;
    if (array.at(0).get_uint64().get(type) || type != 2 || array.at(1).get_string().get(found.id) ||
        array.at(2).get_string().get(action) || action != call || array.at(3).get_object().get(payload))
        return false;
    for (auto field : payload)
        if (!tree::member(field, found))
            return false;
    return lawful(found, sent);
}
