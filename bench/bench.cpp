// Reads the same frames with this project's reader and with its peers, in one process.
//
//     bench FRAMES ROUNDS
//
// FRAMES is a file of texts, one to a line. First every reader reads every text once, and all have to agree on each.
// Then come the rounds, the readers in turn; the best round of each counts. Ends with status 1 where readers disagree.
#include "makwirfa.h"
#include "readers.h"
#include <chrono>
#include <cstdio>
#include <cstdlib>
#include <string>
#include <vector>

extern "C" uint32_t makwirfa_frame_check(const uint8_t *text, size_t length);

// The C function tells only whether the text is a frame.
bool read_makwirfa(const char *text, size_t length, Transmission &) {
    return makwirfa_frame_check(reinterpret_cast<const uint8_t *>(text), length) == 0;
}

struct Reader {
    const char *name;
    Read read;
    bool tells;
    double best;
};

static Reader readers[] = {
    {"makwirfa (this reader)", read_makwirfa, false, 0},
    {"RapidJSON, tree in place", read_rapidjson_dom, true, 0},
    {"RapidJSON, events in place", read_rapidjson_sax, true, 0},
    {"simdjson, On Demand", read_simdjson_ondemand, true, 0},
    {"simdjson, tree", read_simdjson_dom, true, 0},
    {"cJSON, tree", read_cjson, true, 0},
};

struct Line {
    const char *text;
    size_t length;
};

struct Input {
    std::string bytes;
    std::vector<Line> lines;
};

static Input load(const char *path) {
    Input input;
    FILE *file = fopen(path, "rb");
    if (!file) {
        perror(path);
        exit(2);
    }
    fseek(file, 0, SEEK_END);
    size_t size = ftell(file);
    rewind(file);
    input.bytes.resize(size + after);
    size = fread(&input.bytes[0], 1, size, file);
    fclose(file);
    const char *at = input.bytes.data(), *end = at + size;
    while (at < end) {
        const char *feed = static_cast<const char *>(memchr(at, '\n', end - at));
        const char *stop = feed ? feed : end;
        input.lines.push_back({at, size_t(stop - at)});
        at = stop + 1;
    }
    return input;
}

// Whether all say the same of a text: a frame or not, and which transmission.
static bool agree(const Line &line) {
    Transmission none = {};
    bool first = readers[0].read(line.text, line.length, none);
    uint64_t sum = 0;
    for (Reader &reader : readers) {
        Transmission sent = {};
        if (reader.read(line.text, line.length, sent) != first)
            return false;
        if (!first || !reader.tells)
            continue;
        if (sum && sent.sum() != sum)
            return false;
        sum = sent.sum();
    }
    return true;
}

static size_t disagreements(const Input &input) {
    size_t count = 0;
    for (const Line &line : input.lines)
        if (!agree(line) && ++count <= 10) {
            printf("the readers disagree: %.*s\n ", int(line.length), line.text);
            for (Reader &reader : readers) {
                Transmission sent = {};
                printf(" %s: %d;", reader.name, reader.read(line.text, line.length, sent));
            }
            printf("\n");
        }
    return count;
}

// What was read goes here, so that no reading can be left out.
volatile uint64_t kept;

static double seconds(const Input &input, const Reader &reader, size_t &granted) {
    uint64_t sum = 0;
    Transmission sent = {};
    granted = 0;
    auto start = std::chrono::steady_clock::now();
    for (const Line &line : input.lines)
        if (reader.read(line.text, line.length, sent)) {
            granted++;
            sum += sent.value + sent.time;
        }
    std::chrono::duration<double> time = std::chrono::steady_clock::now() - start;
    kept = sum;
    return time.count();
}

static void table(const Input &input) {
    size_t bytes = 0;
    for (const Line &line : input.lines)
        bytes += line.length;
    double count = double(input.lines.size());
    printf("%-28s %10s %10s %10s\n", "reader", "ns/frame", "MB/s", "ratio");
    for (Reader &reader : readers)
        printf("%-28s %10.1f %10.0f %10.2f\n", reader.name, reader.best * 1e9 / count, bytes / reader.best / 1e6,
               reader.best / readers[0].best);
}

int main(int count, char **words) {
    if (count != 3)
        return 2;
    Input input = load(words[1]);
    size_t wrong = disagreements(input), granted = 0;
    int rounds = atoi(words[2]);
    for (int round = 0; round < rounds; round++)
        for (Reader &reader : readers) {
            double time = seconds(input, reader, granted);
            reader.best = round == 0 || time < reader.best ? time : reader.best;
        }
    printf("%s: %zu texts, %zu of them frames, best of %d rounds; the readers disagree on %zu\n", words[1],
           input.lines.size(), granted, rounds, wrong);
    table(input);
    return wrong != 0;
}
