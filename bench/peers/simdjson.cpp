// Ingest without proofs: each payload is read by simdjson's DOM, and stored as `ingest` stores it. The words are those
// of docs/FORMATS.md, and so are the shared steps: the epoch word around each record, a claim by one fetch-and-add,
// each word sequentially consistent, each key entry linked by compare-and-swap, the directory word last.
//
// usage: simdjson FILE [ROUNDS]
#include <atomic>
#include <cstring>
#include <memory>
#include <thread>

#include "events.hpp"

namespace {
constexpr uint64_t pages = 128, page_lines = 32768, line_words = 4, bucket_bits = 16;
constexpr uint64_t end = pages * page_lines, words = end * line_words;
using Word = std::atomic<uint64_t>;

// a log of the same shape as crates/bench opens, all of whose memory is touched while it is made
struct Log {
    Word tail{0}, version{0}, epochs[17]{};
    std::unique_ptr<Word[]> heads{new Word[1 << bucket_bits]}, directory{new Word[pages * page_lines + 16]},
        log{new Word[words]};

    Log() {
        memset((void *)heads.get(), 0, sizeof(Word) << bucket_bits);
        memset((void *)directory.get(), 0, sizeof(Word) * (pages * page_lines + 16));
        memset((void *)log.get(), 0, sizeof(Word) * words);
    }
};

// one thread's share of the payloads
class Lane {
    Log &log;
    const uint64_t number;
    Reader reader;
    std::vector<uint64_t> body;

    // the words of the record, but for its number
    void lay_out(std::string_view payload, uint64_t version) {
        uint64_t bytes = 0;
        for (unsigned i = 0; i < reader.count; i++) bytes += reader.values[i].length();
        const uint64_t value_words = (bytes + 7) / 8, payload_words = (payload.size() + 7) / 8;
        const uint64_t used = 1 + 3 * reader.count + value_words + payload_words;
        const uint64_t lines = (used + line_words - 1) / line_words;
        body.assign(lines * line_words, 0);
        body[0] = lines | uint64_t(reader.count) << 18 | number << 27 | version << 32 | payload.size() << 42;
        char *values = (char *)&body[1 + 3 * reader.count];
        uint64_t offset = 0;
        for (unsigned i = 0; i < reader.count; i++) {
            const Value &value = reader.values[i];
            const uint64_t length = value.length();
            body[2 + 3 * i] = value.id << 28 | uint64_t(i) << 36;
            body[3 + 3 * i] = value.kind | length << 2 | offset << 11;
            // the low byte of a word comes first, as in memory here
            memcpy(values + offset, value.kind == text ? value.bytes.data() : (const char *)&value.number, length);
            offset += length;
        }
        memcpy((char *)&body[1 + 3 * reader.count + value_words], payload.data(), payload.size());
    }

    // the entry's first word, and then the head or the word of a newer entry, so that a chain goes down
    void link(uint64_t bucket, uint64_t place) {
        Word &head = log.heads[bucket];
        uint64_t above = head.load();
        while (above < place) {
            log.log[place].store(above);
            if (head.compare_exchange_strong(above, place)) return;
        }
        for (;;) {
            Word &previous = log.log[above];
            uint64_t next = previous.load();
            while (next < place) {
                log.log[place].store(next);
                if (previous.compare_exchange_strong(next, place)) return;
            }
            above = next;
        }
    }

    // whether the record has a place: a claim that crosses a page's end becomes a void, and is made again
    bool store() {
        const uint64_t lines = body.size() / line_words;
        for (;;) {
            const uint64_t claim = log.tail.fetch_add((uint64_t(1) << 36) + lines);
            const uint64_t record = claim >> 36, line = claim & ((uint64_t(1) << 36) - 1);
            if (line + lines > end) return false;
            if (line / page_lines != (line + lines - 1) / page_lines) {
                log.log[line * line_words].store(lines | 2 << 16);
                log.directory[record].store(line | uint64_t(2) << 36);
                continue;
            }
            for (unsigned i = 0; i < reader.count; i++) body[2 + 3 * i] |= record;
            Word *to = &log.log[line * line_words];
            for (size_t i = 0; i < body.size(); i++) to[i].store(body[i], std::memory_order_seq_cst);
            for (unsigned i = 0; i < reader.count; i++)
                link(reader.values[i].hash() & ((1 << bucket_bits) - 1), line * line_words + 1 + 3 * i);
            log.directory[record].store(line | uint64_t(1) << 36);
            return true;
        }
    }

    uint64_t enter() {
        uint64_t version = log.version.load();
        for (;;) {
            log.epochs[number].store(version + 1);
            const uint64_t found = log.version.load();
            if (found == version) return version;
            version = found;
        }
    }

public:
    Lane(Log &log, uint64_t number) : log(log), number(number) {}

    // how many bytes were stored, up to a payload that wasn't
    uint64_t ingest(const std::string_view *from, const std::string_view *to) {
        uint64_t bytes = 0;
        for (; from != to; from++) {
            if (!reader.read(*from)) return bytes;
            const uint64_t version = enter();
            reader.evaluate();
            lay_out(*from, version);
            const bool stored = store();
            log.epochs[number].store(0);
            if (!stored) return bytes;
            bytes += from->size();
        }
        return bytes;
    }
};

// runs `work` with each lane's number and share, in a thread each, and adds up what they answer
template <class Work> uint64_t in_lanes(const Events &events, int lanes, Work work) {
    std::atomic<uint64_t> bytes{0};
    std::vector<std::thread> threads;
    const size_t count = events.payloads.size(), share = (count + lanes - 1) / lanes;
    const std::string_view *first = events.payloads.data();
    for (int lane = 0; lane < lanes; lane++) {
        const size_t from = std::min(count, lane * share), to = std::min(count, from + share);
        threads.emplace_back([&, lane, from, to] { bytes += work(lane, first + from, first + to); });
    }
    for (auto &thread : threads) thread.join();
    return bytes;
}

// whether the worked record of docs/FORMATS.md, number 0 by lane 1 at version 1, gets its words, its head and its
// directory word
bool stores_as_said() {
    const uint64_t said[] = {0x0000540108040002, 0, 0, 18, 0x68737550, 0x3a2265707974227b, 0x222c226873755022,
                             0x7d313a226e};
    const auto payload = simdjson::padded_string(std::string(R"({"type":"Push","n":1})"));
    const std::string_view line = payload;
    Log log;
    log.version.store(1);
    if (Lane(log, 1).ingest(&line, &line + 1) != line.size()) return false;
    for (int i = 0; i < 8; i++)
        if (log.log[i] != said[i]) return false;
    return log.heads[0x4cb5b66ad1f41df5 & ((1 << bucket_bits) - 1)] == 1 && log.directory[0] == uint64_t(1) << 36;
}
} // namespace

int main(int words, char **word) {
    if (words < 2) {
        fprintf(stderr, "usage: simdjson FILE [ROUNDS]\n");
        return 1;
    }
    if (!stores_as_said()) {
        fprintf(stderr, "simdjson: the worked record of docs/FORMATS.md is not stored as it is said there\n");
        return 1;
    }
    const Events events(word[1]);
    const int rounds = words > 2 ? atoi(word[2]) : 5;
    for (int lanes : {1, 2, 4}) {
        uint64_t best_parse = UINT64_MAX, best_ingest = UINT64_MAX;
        for (int round = 0; round < rounds; round++) {
            uint64_t read = 0, stored = 0;
            std::vector<Reader> readers(lanes);
            const uint64_t parse = time_of([&] {
                read = in_lanes(events, lanes, [&](int lane, auto from, auto to) {
                    uint64_t bytes = 0;
                    for (; from != to; from++)
                        if (readers[lane].read(*from)) bytes += from->size();
                    return bytes;
                });
            });
            Log log;
            std::vector<std::unique_ptr<Lane>> all;
            for (int lane = 0; lane < lanes; lane++) all.emplace_back(new Lane(log, lane + 1));
            const uint64_t ingest = time_of([&] {
                stored = in_lanes(events, lanes, [&](int lane, auto from, auto to) { return all[lane]->ingest(from, to); });
            });
            report("parse", lanes, parse, read);
            report("ingest", lanes, ingest, stored);
            if (read != events.size || stored != events.size) {
                fprintf(stderr, "simdjson: some payloads were refused, or not stored\n");
                return 1;
            }
            best_parse = std::min(best_parse, parse);
            best_ingest = std::min(best_ingest, ingest);
        }
        print_best("simdjson, parsing alone", lanes, best_parse, events.size);
        print_best("simdjson, ingest", lanes, best_ingest, events.size);
    }
}
