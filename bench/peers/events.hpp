// What both peers share: the lines of a file of events, the check that a line is a record, the values that the four
// definitions of crates/bench give for it, and the best of several rounds.
#pragma once
#include <chrono>
#include <cstdint>
#include <cstdio>
#include <cstdlib>
#include <fstream>
#include <string_view>
#include <vector>

#include <simdjson.h>

constexpr size_t max_payload = 524288, max_text = 256;

// the lines of a file, without their ends, in memory that has simdjson's padding behind it
struct Events {
    simdjson::padded_string bytes;
    std::vector<std::string_view> payloads;
    uint64_t size = 0;

    explicit Events(const char *name) : bytes(simdjson::padded_string::load(name).value()) {
        std::string_view rest = bytes;
        while (!rest.empty()) {
            size_t end = rest.find('\n');
            std::string_view line = rest.substr(0, end);
            rest = end == std::string_view::npos ? std::string_view() : rest.substr(end + 1);
            if (!line.empty() && line.back() == '\r') line.remove_suffix(1);
            if (line.find_first_not_of(" \t\r") == std::string_view::npos) continue;
            payloads.push_back(line);
            size += line.size();
        }
    }
};

// a value, as the log has it
enum Kind : uint64_t { boolean = 0, integer = 1, text = 2 };
struct Value {
    uint64_t id;
    Kind kind;
    std::string_view bytes;
    int64_t number;

    // FNV-1a over the definition's id in two bytes, low byte first, and the value's bytes
    uint64_t hash() const {
        uint64_t hash = 0xcbf29ce484222325;
        auto mix = [&](uint8_t byte) { hash = (hash ^ byte) * 0x100000001b3; };
        mix(id & 0xff);
        mix(id >> 8);
        if (kind == text)
            for (char byte : bytes) mix(byte);
        else
            for (unsigned i = 0; i < length(); i++) mix(number >> (8 * i));
        return hash;
    }
    uint64_t length() const { return kind == text ? bytes.size() : kind == integer ? 8 : 1; }
};

// reads payloads one after another, with memory that is kept
class Reader {
    simdjson::dom::parser parser;
    simdjson::dom::object object;

    // of two equal names the last counts
    static bool at(simdjson::dom::object in, std::string_view name, simdjson::dom::element &found) {
        bool any = false;
        for (auto field : in)
            if (field.key == name) {
                found = field.value;
                any = true;
            }
        return any;
    }
    static bool at(simdjson::dom::object in, std::string_view outer, std::string_view inner,
                   simdjson::dom::element &found) {
        simdjson::dom::element middle;
        simdjson::dom::object below;
        return at(in, outer, middle) && !middle.get(below) && at(below, inner, found);
    }

public:
    Value values[4];
    unsigned count = 0;

    Reader() {
        if (parser.allocate(max_payload, 128)) abort();
    }

    // whether a payload is a record: UTF-8, JSON throughout, numbers that have a value, and an object outside
    bool read(std::string_view payload) {
        if (payload.size() > max_payload) return false;
        simdjson::dom::element whole;
        // the file is padded, and what stands behind a line is more of the file, so nothing is copied
        return !parser.parse(payload.data(), payload.size(), false).get(whole) && !whole.get(object);
    }

    // take type; take actor.login; flag when type = "PushEvent" and public = true; bucket payload.size by 10
    void evaluate() {
        count = 0;
        take(0, [&](auto &found) { return at(object, "type", found); });
        take(1, [&](auto &found) { return at(object, "actor", "login", found); });
        simdjson::dom::element kind, open;
        std::string_view name;
        bool is = false;
        if (at(object, "type", kind) && !kind.get(name) && name == "PushEvent" && at(object, "public", open) &&
            !open.get(is) && is)
            values[count++] = {2, boolean, {}, 1};
        simdjson::dom::element size;
        int64_t number;
        if (at(object, "payload", "size", size) && !size.get(number)) {
            int64_t rest = number % 10;
            if (rest < 0) rest += 10;
            if (number >= INT64_MIN + rest) values[count++] = {3, integer, {}, number - rest};
        }
    }

private:
    template <class Find> void take(uint64_t id, Find find) {
        simdjson::dom::element found;
        std::string_view name;
        int64_t number;
        bool is;
        if (!find(found)) return;
        if (!found.get(name)) {
            if (name.size() <= max_text) values[count++] = {id, text, name, 0};
        } else if (!found.get(number)) {
            values[count++] = {id, integer, {}, number};
        } else if (!found.get(is)) {
            values[count++] = {id, boolean, {}, is};
        }
    }
};

// the nanoseconds of a run
template <class Run> uint64_t time_of(Run run) {
    auto start = std::chrono::steady_clock::now();
    run();
    return std::chrono::nanoseconds(std::chrono::steady_clock::now() - start).count();
}

// one line: what was done, in how many lanes, the nanoseconds and the bytes of the payloads
inline void report(const char *work, int lanes, uint64_t nanoseconds, uint64_t bytes) {
    fprintf(stderr, "%s %d lanes %lu ns %lu bytes\n", work, lanes, (unsigned long)nanoseconds, (unsigned long)bytes);
}

// the same for a reader, of the best round
inline void print_best(const char *work, int lanes, uint64_t nanoseconds, uint64_t bytes) {
    printf("%s, %d lanes: %.0f MB/s\n", work, lanes, bytes * 1e3 / nanoseconds);
}
