// The reader over cJSON: its tree, one allocation or more for each node. It keeps numbers as double, so it cannot tell
// 2 from 2.0.
#include "readers.h"
#include <cjson/cJSON.h>

static bool natural(const cJSON *item, uint64_t &number) {
    if (!cJSON_IsNumber(item) || item->valuedouble < 0 || item->valuedouble > 1e15)
        return false;
    number = uint64_t(item->valuedouble);
    return double(number) == item->valuedouble;
}

static bool string(const cJSON *item, std::string_view &text) {
    if (!cJSON_IsString(item))
        return false;
    text = item->valuestring;
    return true;
}

// The object that is the one element of an array.
static const cJSON *only(const cJSON *item) {
    bool one = cJSON_IsArray(item) && item->child && !item->child->next && cJSON_IsObject(item->child);
    return one ? item->child : nullptr;
}

static bool sample(const cJSON *object, Found &found) {
    Names names;
    std::string_view text;
    if (!object)
        return false;
    for (const cJSON *item = object->child; item; item = item->next) {
        Name name = sample_name(item->string);
        if (names.again(name) || (name == value && !natural(item, found.value)) ||
            (name == measurand && !(string(item, text) && text == energy)))
            return false;
    }
    found.metered = true;
    return !names.lack(value);
}

static bool meter(const cJSON *object, Found &found) {
    Names names;
    if (!object)
        return false;
    for (const cJSON *item = object->child; item; item = item->next) {
        Name name = meter_name(item->string);
        if (names.again(name) || (name == sampled_value && !sample(only(item), found)))
            return false;
    }
    return !names.lack(sampled_value);
}

static bool info(const cJSON *object, Found &found) {
    Names names;
    if (!cJSON_IsObject(object))
        return false;
    for (const cJSON *item = object->child; item; item = item->next) {
        Name name = info_name(item->string);
        if (names.again(name) || (name == transaction_id && !string(item, found.transaction)))
            return false;
    }
    return !names.lack(transaction_id);
}

static bool member(const cJSON *item, Found &found) {
    Name name = payload_name(item->string);
    if (found.names.again(name))
        return false;
    if (std::string_view *text = text_under(name, found))
        return string(item, *text);
    switch (name) {
    case seq_no: return natural(item, found.number);
    case offline: found.offline = cJSON_IsTrue(item); return cJSON_IsBool(item);
    case transaction_info: return info(item, found);
    case meter_value: return meter(only(item), found);
    default: return true;
    }
}

static bool frame(const cJSON *root, Transmission &sent) {
    Found found;
    uint64_t type;
    std::string_view action;
    if (!cJSON_IsArray(root) || cJSON_GetArraySize(root) != 4)
        return false;
    const cJSON *first = root->child, *second = first->next, *third = second->next, *fourth = third->next;
    if (!natural(first, type) || type != 2 || !string(second, found.id) || !string(third, action) || action != call ||
        !cJSON_IsObject(fourth))
        return false;
    for (const cJSON *item = fourth->child; item; item = item->next)
        if (!member(item, found))
            return false;
    return lawful(found, sent);
}

bool read_cjson(const char *text, size_t length, Transmission &sent) {
    const char *end = nullptr;
    if (length > longest)
        return false;
    cJSON *root = cJSON_ParseWithLengthOpts(text, length, &end, false);
    bool whole = root && strspn(end, " \t\r") >= size_t(text + length - end);
    bool good = whole && frame(root, sent);
    cJSON_Delete(root);
    return good;
}
