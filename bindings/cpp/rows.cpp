// Calls the library from C++ on the rows that bindings/tests/rows.py writes, and ends with 0 where each answer is right.
//
// usage: rows FILE
#include "tulvorn.hpp"
#include <cstdio>
#include <fstream>
#include <sstream>

using namespace tulvorn;

static const Rules BOTH[] = {Rules::Per, Rules::Oer};

static bool none(const std::string &word) { return word == "-"; }

static Octets octets_of(const std::string &word) {
    Octets octets;
    for (size_t at = 2; at + 1 < word.size(); at += 2)
        octets.push_back(static_cast<uint8_t>(std::stoul(word.substr(at, 2), nullptr, 16)));
    return octets;
}

static std::string text_of(const std::string &word) {
    Octets octets = octets_of(word);
    return std::string(octets.begin(), octets.end());
}

static Rules rules_of(const std::string &word) { return BOTH[word == "1"]; }

static bool writes(const Value &value, Rules rules, const Octets &octets) {
    Octets into(octets.size());
    return value.encode(rules) == octets && value.encoded_len(rules) == octets.size() &&
           value.encode_into(rules, into.data(), into.size()) == octets.size() && into == octets;
}

// The octets are the encoding of a value, which comes back from JSON and from the other rules.
static bool taken(const Type &type, Rules rules, const Octets &octets) {
    Value value = type.decode(rules, octets);
    Newer newer = type.read_newer(rules, octets);
    Rules other = rules == Rules::Per ? Rules::Oer : Rules::Per;
    return !type.fault_if(rules, octets) && type.explain(rules, octets).empty() && writes(value, rules, octets) &&
           writes(type.from_json(value.to_json()), rules, octets) && newer.skipped.empty() &&
           writes(newer.value, rules, octets) && type.convert(other, type.convert(rules, octets)) == octets;
}

// value PER OER JSON SHOWN
static bool of_value(const Type &type, const std::vector<std::string> &words) {
    for (size_t at = 0; at < 2; at++) {
        const std::string &word = words[1 + at], &other = words[2 - at];
        if (none(word)) continue;
        Octets octets = octets_of(word);
        bool well = taken(type, BOTH[at], octets) &&
                    (none(words[3]) || writes(type.from_json(text_of(words[3])), BOTH[at], octets)) &&
                    (none(words[4]) || type.decode(BOTH[at], octets).to_json() == text_of(words[4])) &&
                    (none(other) || type.convert(BOTH[at], octets) == octets_of(other));
        if (!well) return false;
    }
    return true;
}

// The call throws this fault.
template <class Call> static bool throws(const tulvorn_fault &told, Call call) {
    try {
        call();
    } catch (const Fault &fault) {
        return fault.code() == told.code && fault.why() == told.why && fault.at() == told.at;
    }
    return false;
}

// check RULES OCTETS CODE WHY AT
static bool of_check(const Type &type, const std::vector<std::string> &words) {
    Rules rules = rules_of(words[1]);
    Octets octets = octets_of(words[2]);
    tulvorn_fault told{uint32_t(std::stoul(words[3])), uint32_t(std::stoul(words[4])), std::stoull(words[5])};
    if (told.code == TULVORN_DONE) return taken(type, rules, octets);
    auto fault = type.fault_if(rules, octets);
    return fault && fault->code == told.code && fault->why == told.why && fault->at == told.at &&
           throws(told, [&] { type.decode(rules, octets); }) && throws(told, [&] { type.convert(rules, octets); }) &&
           !type.explain(rules, octets).empty();
}

// newer RULES OCTETS CODE SHOWN FIELDS
static bool of_newer(const Type &type, const std::vector<std::string> &words) {
    Rules rules = rules_of(words[1]);
    Octets octets = octets_of(words[2]);
    auto code = uint32_t(std::stoul(words[3]));
    if (code != TULVORN_DONE) return throws(tulvorn_fault{code, 0, 0}, [&] { type.read_newer(rules, octets); });
    Newer newer = type.read_newer(rules, octets);
    std::string told;
    for (const Skipped &field : newer.skipped) {
        static const char digits[] = "0123456789abcdef";
        told += (told.empty() ? "" : ",") + std::to_string(field.place) + ":0x";
        for (uint8_t octet : field.octets) told += {digits[octet / 16], digits[octet % 16]};
    }
    return newer.value.to_json() == text_of(words[4]) && (told.empty() ? "-" : told) == words[5];
}

int main(int count, char **arguments) {
    std::ifstream from(count == 2 ? arguments[1] : "");
    std::optional<Module> module;
    std::optional<Type> type;
    size_t rows = 0, left = 0, wanted = 1;
    bool well = true;
    for (std::string line; well && std::getline(from, line);) {
        std::istringstream in(line);
        std::vector<std::string> words;
        for (std::string word; in >> word;) words.push_back(word);
        const std::string &kind = words.at(0);
        if (kind == "module") module.emplace(text_of(words.at(1)));
        else if (kind == "type") type.emplace(module->type(words.at(1)));
        else if (kind == "end") wanted = std::stoul(words.at(1));
        else if (kind == "value") well = of_value(*type, words);
        else if (kind == "check") well = of_check(*type, words);
        else if (kind == "newer") well = of_newer(*type, words);
        else left++;
        if (kind == "value" || kind == "check" || kind == "newer") rows++;
        if (!well) std::printf("not so: %.200s\n", line.c_str());
    }
    well = well && rows + left == wanted;
    std::printf("C++: %zu rows, %s; %zu of sessions left out\n", rows, well ? "passed" : "FAILED", left);
    return !well;
}
