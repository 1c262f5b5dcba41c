// The checks that the peers' readers share.
#include "readers.h"

// The number that digits write, in the places `from` up to `to`.
static bool digits(std::string_view text, size_t from, size_t to, uint64_t &number) {
    number = 0;
    for (size_t place = from; place < to; place++) {
        unsigned digit = unsigned(text[place]) - '0';
        if (digit > 9)
            return false;
        number = number * 10 + digit;
    }
    return true;
}

static bool read_id(std::string_view id, Transmission &sent) {
    return id.size() == 22 && id[5] == '-' && id[14] == '-' && id[19] == '-' && digits(id, 0, 5, sent.station) &&
           digits(id, 6, 14, sent.session) && digits(id, 15, 19, sent.number) && digits(id, 20, 22, sent.attempt);
}

static bool read_time(std::string_view text, uint64_t &time) {
    static const unsigned before[] = {0, 31, 59, 90, 120, 151, 181, 212, 243, 273, 304, 334, 365};
    uint64_t year, month, day, hour, minute, second;
    if (text.size() != 20 || text[4] != '-' || text[7] != '-' || text[10] != 'T' || text[13] != ':' ||
        text[16] != ':' || text[19] != 'Z')
        return false;
    if (!digits(text, 0, 4, year) || !digits(text, 5, 7, month) || !digits(text, 8, 10, day) ||
        !digits(text, 11, 13, hour) || !digits(text, 14, 16, minute) || !digits(text, 17, 19, second))
        return false;
    if (year < 2000 || year > 2099 || month < 1 || month > 12 || hour > 23 || minute > 59 || second > 59)
        return false;
    unsigned leap = year % 4 == 0;
    if (day < 1 || day > before[month] - before[month - 1] + (month == 2 ? leap : 0))
        return false;
    uint64_t days = (year - 2000) * 365 + (year - 2000 + 3) / 4 + before[month - 1] + (month > 2 ? leap : 0) + day - 1;
    time = ((days * 24 + hour) * 60 + minute) * 60 + second;
    return true;
}

static bool one_of(std::string_view text, std::string_view first, std::string_view second, std::string_view third,
                   uint64_t &which) {
    which = text == first ? 0 : text == second ? 1 : 2;
    return which < 2 || text == third;
}

bool lawful(const Found &found, Transmission &sent) {
    if (found.names.lack(required_in_payload) || !read_id(found.id, sent) || !read_time(found.time, sent.time))
        return false;
    if (!one_of(found.kind, "Started", "Updated", "Ended", sent.kind) ||
        !one_of(found.reason, "CablePluggedIn", "MeterValuePeriodic", "EVDeparted", sent.reason))
        return false;
    sent.offline = found.offline;
    sent.metered = found.metered;
    sent.value = found.value;
    return found.transaction == found.id.substr(0, 14) && found.number == sent.number && sent.station <= 65535 &&
           sent.session > 0 && sent.attempt >= 1 && sent.attempt <= 20 && (sent.number == 0) == (sent.kind == 0) &&
           (found.metered || sent.kind == 1) && sent.value <= 1000000000;
}
