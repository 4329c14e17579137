// Calls the library from C++, and ends with 0 where each answer is right.
#include "tulvorn.hpp"
#include <cstdio>
#include <thread>

using namespace tulvorn;

static const char *const MODULE = "M DEFINITIONS AUTOMATIC TAGS ::= BEGIN\n"
                                  "Msg ::= SEQUENCE { id INTEGER (0..7), ok BOOLEAN DEFAULT TRUE,\n"
                                  "    note IA5String (SIZE (0..3)) OPTIONAL,\n"
                                  "    colour ENUMERATED { red, green } OPTIONAL,\n"
                                  "    key OCTET STRING OPTIONAL, bits BIT STRING OPTIONAL }\n"
                                  "Old ::= SEQUENCE { a BOOLEAN, ... }\n"
                                  "Wide ::= INTEGER\n"
                                  "--! Wide narrower\n"
                                  "Low ::= SEQUENCE { id INTEGER (0..3), ok BOOLEAN DEFAULT TRUE,\n"
                                  "    note IA5String (SIZE (0..3)) OPTIONAL,\n"
                                  "    colour ENUMERATED { red, green } OPTIONAL,\n"
                                  "    key OCTET STRING OPTIONAL, bits BIT STRING OPTIONAL }\n"
                                  "END\n";

static int failed = 0;

static void check(bool holds, const char *what) {
    if (!holds) {
        std::printf("not so: %s\n", what);
        failed = 1;
    }
}

#define CHECK(holds) check(holds, #holds)

template <class Call> static uint32_t code_of(Call call) {
    try {
        call();
        return TULVORN_DONE;
    } catch (const Fault &fault) {
        return fault.code();
    }
}

// messages in pieces, and where a value or JSON is none of a type
static void pieces(const Module &module, const Type &type) {
    Session session = type.open(Rules::Per);
    CHECK(!session.feed(Octets{}) && !session.feed(Octets{0x44}));
    std::optional<Fed> fed = session.feed(Octets{0x60, 0x80, 0xff});
    CHECK(fed && fed->used == 2 && fed->value.integer("id") == 4 && fed->value.text("note") == "A");
    CHECK(code_of([&] { session.feed(Octets{0}); }) == TULVORN_SPENT);
    session.finish();
    CHECK(code_of([&] { session.finish(); }) == TULVORN_MISUSE);
    Session other = type.open(Rules::Oer);
    CHECK(!other.feed(Octets{0x00}) && code_of([&] { other.finish(); }) == TULVORN_TRUNCATED);
    Session moved = std::move(session = type.open(Rules::Per));
    CHECK(code_of([&] { moved.feed(Octets{0xff, 0xff}); }) == TULVORN_REFUSED);
    Value low = type.from_json(R"({"id":5})");
    CHECK(type.misfit(low).empty() && module.type("Low").misfit(low) == "$.id: 5 is not in 0..3");
    CHECK(type.explain_json(R"({"id":5})").empty() && type.explain_json(R"({"id":9})") == "not of the type");
    CHECK(type.explain_json(R"({"id":[]})") == "not of the type's shape at $.id");
    CHECK(code_of([&] { type.explain_json("{"); }) == TULVORN_NO_JSON);
}

// one type and one value in threads
static void shared_by_threads(const Type &type) {
    const Value value = type.from_json(R"({"id":5})");
    std::vector<int> wrong(4);
    std::vector<std::thread> threads;
    for (int &mine : wrong) {
        threads.emplace_back([&] {
            for (int at = 0; at < 20000; at++) {
                mine += type.fault_if(Rules::Per, Octets{0x05}).has_value() || value.integer("id") != 5;
            }
        });
    }
    for (std::thread &thread : threads) thread.join();
    CHECK(wrong == std::vector<int>(4));
}

// values within a budget, and what exceptions say
static void budgets(const Type &type) {
    const Octets octets{0x40, 0x05, 0x01, 0x41};
    CHECK(!type.fault_if(Rules::Oer, octets, {7, 1}) && type.decode(Rules::Oer, octets, {7, 1}).text("note") == "A");
    CHECK(type.fault_if(Rules::Oer, octets, {6, 1})->code == TULVORN_OVER_BUDGET);
    CHECK(code_of([&] { type.decode(Rules::Oer, octets, {7, 0}); }) == TULVORN_OVER_BUDGET);
    std::string words;
    try {
        type.from_json(R"({"idd":9})");
    } catch (const Fault &fault) {
        words = fault.what();
    }
    CHECK(words.find("not of the type's shape at $") == 0);
}

int main() {
    Module module(MODULE);
    Type type = module.type("Msg");
    CHECK(code_of([&] { module.type("Other"); }) == TULVORN_NO_NAME);
    CHECK(code_of([&] { module.type("Msg", 1); }) == TULVORN_TOO_DEEP);
    CHECK(module.type("Msg", 2).from_json(R"({"id":5})").integer("id") == 5);
    CHECK(module.difference("Msg").empty() && module.difference("Wide") == "narrower");
    CHECK(code_of([&] { module.difference("Other"); }) == TULVORN_NO_NAME);
    CHECK(code_of([&] { Module wrong("M"); }) == TULVORN_NO_MODULE);
    CHECK(Module::explain("M").find("line 1, column 2: ") == 0);
    Value value = type.from_json(R"({"id":5,"note":"A","colour":"green","key":"00ff","bits":"10"})");
    CHECK(value.integer("id") == 5 && value.boolean("ok") && value.text("note") == "A");
    CHECK(value.unsigned_integer("id") == 5);
    Value wide = module.type("Wide").decode(Rules::Oer, Octets{9, 0, 255, 255, 255, 255, 255, 255, 255, 255});
    CHECK(wide.unsigned_integer("") == UINT64_MAX && code_of([&] { wide.integer(""); }) == TULVORN_OTHER_KIND);
    CHECK(module.type("Wide").from_json("18446744073709551615").encode(Rules::Per) == wide.encode(Rules::Oer));
    CHECK(value.name("colour") == "green");
    CHECK(value.octets("key") == (Octets{0, 255}) && value.count("bits") == 2);
    CHECK(value.bit("bits", 0) && !value.bit("bits", 1));
    CHECK(value.has("note") && value.kind("") == TULVORN_SEQUENCE);
    CHECK(!type.from_json(R"({"id":5})").has("note") && code_of([&] { value.has("nota"); }) == TULVORN_NO_PATH);
    for (Rules rules : {Rules::Per, Rules::Oer}) {
        Octets octets = value.encode(rules), into(octets.size());
        CHECK(value.encoded_len(rules) == octets.size());
        CHECK(value.encode_into(rules, into.data(), into.size()) == octets.size() && into == octets);
        CHECK(code_of([&] { value.encode_into(rules, into.data(), into.size() - 1); }) == TULVORN_TOO_SHORT);
        CHECK(!type.fault_if(rules, octets) && type.decode(rules, octets).to_json() == value.to_json());
        Octets other = type.convert(rules, octets);
        CHECK(other == value.encode(rules == Rules::Per ? Rules::Oer : Rules::Per));
        octets.pop_back();
        CHECK(type.fault_if(rules, octets)->code == TULVORN_TRUNCATED);
        CHECK(code_of([&] { type.decode(rules, octets); }) == TULVORN_TRUNCATED);
    }
    Newer newer = module.type("Old").read_newer(Rules::Oer, Octets{0x80, 0xff, 0x02, 0x07, 0x80, 0x01, 0x2a});
    CHECK(newer.value.boolean("a") && newer.skipped.size() == 1 && newer.skipped[0].place == 0);
    CHECK(newer.skipped[0].octets == Octets{0x2a});
    CHECK(type.explain(Rules::Per, Octets{0xac, 0}).find("cut short after 16 bits in $") == 0);
    pieces(module, type);
    shared_by_threads(type);
    budgets(type);
    // a type in another thread, and a value that is moved
    std::thread thread([shared = type.share()] { CHECK(shared.from_json(R"({"id":7})").integer("id") == 7); });
    thread.join();
    Value moved(std::move(value));
    CHECK(moved.integer("id") == 5 && code_of([&] { value.integer("id"); }) == TULVORN_MISUSE);
    try {
        type.decode(Rules::Per, Octets{0xac, 0});
    } catch (const Fault &fault) {
        std::printf("C++: %s, %s\n", fault.what(), failed ? "FAILED" : "passed");
    }
    return failed;
}
