// Tulvorn for C++17: handles that close themselves, and faults as exceptions. Header only, over tulvorn.h and its
// library.
//
// A Module, Type, Value or Session is moved and not copied; Type::share makes another of a type. Threads may call the
// const functions of one object at once. A call that does not do what it was asked for throws tulvorn::Fault, or
// std::bad_alloc where an allocation failed; the functions that end in _if return the fault instead.
#ifndef TULVORN_HPP
#define TULVORN_HPP

#include "tulvorn.h"
#include <cstdint>
#include <new>
#include <optional>
#include <stdexcept>
#include <string>
#include <string_view>
#include <type_traits>
#include <utility>
#include <vector>

namespace tulvorn {

enum class Rules : uint32_t { Per = TULVORN_PER, Oer = TULVORN_OER };

using Octets = std::vector<uint8_t>;

// Octets in one piece of memory: of a vector, an array, a std::span.
class OctetsView {
  public:
    OctetsView(const uint8_t *data, size_t size) : data_(data), size_(size) {}
    template <class T, class Data = decltype(std::declval<const T &>().data()),
              class = std::enable_if_t<std::is_convertible_v<Data, const uint8_t *>>>
    OctetsView(const T &octets) : data_(octets.data()), size_(octets.size()) {}
    const uint8_t *data() const { return data_; }
    size_t size() const { return size_; }

  private:
    const uint8_t *data_;
    size_t size_;
};

namespace detail {

inline const uint8_t *octets_of(std::string_view text) { return reinterpret_cast<const uint8_t *>(text.data()); }

class Handle {
  public:
    Handle() = default;
    Handle(const Handle &) = delete;
    Handle &operator=(const Handle &) = delete;
    Handle(Handle &&other) noexcept : held_(other.held_) { other.held_ = TULVORN_NONE; }
    Handle &operator=(Handle &&other) noexcept {
        std::swap(held_, other.held_);
        return *this;
    }
    ~Handle() { tulvorn_close(&held_); }
    // for the calls that only read
    const tulvorn_handle *get() const { return &held_; }
    // for the calls that fill the handle, or take a piece into its session
    tulvorn_handle *fill() { return &held_; }

  private:
    tulvorn_handle held_ = TULVORN_NONE;
};

inline std::string text_of(const Handle &held) {
    size_t size = 0;
    tulvorn_copy(held.get(), nullptr, 0, &size);
    std::string text(size, '\0');
    tulvorn_copy(held.get(), reinterpret_cast<uint8_t *>(text.data()), size, &size);
    return text;
}

inline Octets octets_of(const Handle &held) {
    size_t size = 0;
    tulvorn_copy(held.get(), nullptr, 0, &size);
    Octets octets(size);
    tulvorn_copy(held.get(), octets.data(), size, &size);
    return octets;
}

inline std::string words_of(const tulvorn_fault &fault, Rules rules) {
    Handle words;
    if (tulvorn_words(&fault, static_cast<uint32_t>(rules), words.fill()) != TULVORN_DONE) throw std::bad_alloc();
    return text_of(words);
}

}  // namespace detail

// Why a call did not do what it was asked for: its code, reason and place are those of tulvorn.h, which says of each
// code what its place counts, and from where.
class Fault : public std::runtime_error {
  public:
    Fault(const tulvorn_fault &fault, Rules rules) : Fault(fault, detail::words_of(fault, rules)) {}
    Fault(const tulvorn_fault &fault, const std::string &words) : std::runtime_error(words), fault_(fault) {}
    uint32_t code() const { return fault_.code; }
    uint32_t why() const { return fault_.why; }
    uint64_t at() const { return fault_.at; }

  private:
    tulvorn_fault fault_;
};

namespace detail {

inline void look(uint32_t code, const tulvorn_fault &fault, Rules rules = Rules::Per) {
    if (code == TULVORN_DONE) return;
    if (code == TULVORN_NO_MEMORY) throw std::bad_alloc();
    throw Fault(fault, rules);
}

inline void look(uint32_t code) { look(code, tulvorn_fault{code, 0, 0}); }

}  // namespace detail

// A value with its type. Its parts are read by paths, as coreData.speed or path[3].x: see tulvorn.h.
class Value {
  public:
    Octets encode(Rules rules) const {
        detail::Handle octets;
        tulvorn_fault fault;
        detail::look(tulvorn_encode(held_.get(), static_cast<uint32_t>(rules), octets.fill(), &fault), fault, rules);
        return detail::octets_of(octets);
    }
    size_t encoded_len(Rules rules) const {
        size_t size = 0;
        tulvorn_fault fault;
        detail::look(tulvorn_encoded_len(held_.get(), static_cast<uint32_t>(rules), &size, &fault), fault, rules);
        return size;
    }
    // Puts the encoding into the first octets at `into`, and gives how many it has. Takes no memory.
    size_t encode_into(Rules rules, uint8_t *into, size_t room) const {
        size_t size = 0;
        tulvorn_fault fault;
        auto code = tulvorn_encode_into(held_.get(), static_cast<uint32_t>(rules), into, room, &size, &fault);
        detail::look(code, fault, rules);
        return size;
    }
    std::string to_json() const {
        detail::Handle json;
        tulvorn_fault fault;
        detail::look(tulvorn_to_json(held_.get(), json.fill(), &fault), fault);
        return detail::text_of(json);
    }
    // Whether the value has the part: false for an absent component without a DEFAULT, an alternative that is not
    // chosen, and an element past the end. Throws TULVORN_NO_PATH if no value of the type has such a part.
    bool has(std::string_view path) const {
        uint32_t kind;
        uint32_t code = tulvorn_kind(held_.get(), detail::octets_of(path), path.size(), &kind);
        if (code == TULVORN_ABSENT) return false;
        detail::look(code);
        return true;
    }
    uint32_t kind(std::string_view path) const {
        uint32_t kind = 0;
        detail::look(tulvorn_kind(held_.get(), detail::octets_of(path), path.size(), &kind));
        return kind;
    }
    int64_t integer(std::string_view path) const {
        int64_t number = 0;
        detail::look(tulvorn_integer(held_.get(), detail::octets_of(path), path.size(), &number));
        return number;
    }
    uint64_t unsigned_integer(std::string_view path) const {
        uint64_t number = 0;
        detail::look(tulvorn_unsigned(held_.get(), detail::octets_of(path), path.size(), &number));
        return number;
    }
    bool boolean(std::string_view path) const {
        uint32_t truth = 0;
        detail::look(tulvorn_boolean(held_.get(), detail::octets_of(path), path.size(), &truth));
        return truth != 0;
    }
    size_t count(std::string_view path) const {
        size_t count = 0;
        detail::look(tulvorn_count(held_.get(), detail::octets_of(path), path.size(), &count));
        return count;
    }
    bool bit(std::string_view path, size_t index) const {
        uint32_t bit = 0;
        detail::look(tulvorn_bit(held_.get(), detail::octets_of(path), path.size(), index, &bit));
        return bit != 0;
    }
    Octets octets(std::string_view path) const { return string_at<Octets>(tulvorn_octets, path); }
    std::string text(std::string_view path) const { return string_at<std::string>(tulvorn_text, path); }
    // The name of the item of an ENUMERATED, or of the chosen alternative of a CHOICE. Of one that the type has not, in
    // a value of Type::read_newer, it throws TULVORN_OTHER_KIND: JSON shows its number, as "?2" and {"?1":null}.
    std::string name(std::string_view path) const { return string_at<std::string>(tulvorn_name, path); }

  private:
    friend class Type;
    friend class Session;
    using Call = uint32_t (*)(const tulvorn_handle *, const uint8_t *, size_t, uint8_t *, size_t, size_t *);
    template <class String> String string_at(Call call, std::string_view path) const {
        String string;
        size_t size = 0;
        uint32_t code = call(held_.get(), detail::octets_of(path), path.size(), nullptr, 0, &size);
        if (code == TULVORN_TOO_SHORT) {
            string.resize(size);
            auto *into = reinterpret_cast<uint8_t *>(string.data());
            code = call(held_.get(), detail::octets_of(path), path.size(), into, size, &size);
        }
        detail::look(code);
        return string;
    }
    detail::Handle held_;
};

// A field of a message that the receiver's type has not: its index among the extension additions of its type, from 0,
// and its octets.
struct Skipped {
    uint32_t place;
    Octets octets;
};

// What is read of a message of a newer or older sender. A value with an item or alternative that the type has not has
// JSON and no encoding: see tulvorn_read_newer.
struct Newer {
    Value value;
    std::vector<Skipped> skipped;
};

// What a session answers to a piece in which its message ends: the value, and how many octets of the piece belong to
// it.
struct Fed {
    Value value;
    size_t used;
};

// A message whose octets come in pieces: see tulvorn_feed. It outlives its type.
class Session {
  public:
    // Takes the next piece. Nothing where the octets so far are no whole encoding, and one may still follow. After
    // std::bad_alloc no value comes any more: each further piece is TULVORN_SPENT.
    std::optional<Fed> feed(OctetsView piece) {
        Fed fed{{}, 0};
        tulvorn_fault fault;
        auto value = fed.value.held_.fill();
        auto code = tulvorn_feed(held_.fill(), piece.data(), piece.size(), value, &fed.used, &fault);
        if (code == TULVORN_MORE) return std::nullopt;
        detail::look(code, fault, rules_);
        return fed;
    }
    // Ends the session: throws where the octets that it took are no whole encoding. That it does not throw does not say
    // that a value was given, which feed alone says: see tulvorn_finish.
    void finish() {
        tulvorn_fault fault;
        uint32_t code = tulvorn_finish(held_.fill(), &fault);
        detail::look(code, fault, rules_);
    }

  private:
    friend class Type;
    explicit Session(Rules rules) : rules_(rules) {}
    detail::Handle held_;
    Rules rules_;
};

// A type of a module. It outlives the module.
class Type {
  public:
    // Another handle of the same type.
    Type share() const {
        Type other;
        detail::look(tulvorn_share(held_.get(), other.held_.fill()));
        return other;
    }
    // The fault where the octets are no encoding of a value of the type.
    std::optional<tulvorn_fault> fault_if(Rules rules, OctetsView octets) const {
        tulvorn_fault fault;
        uint32_t code = tulvorn_check(held_.get(), static_cast<uint32_t>(rules), octets.data(), octets.size(), &fault);
        if (code == TULVORN_NO_MEMORY) throw std::bad_alloc();
        if (code == TULVORN_DONE) return std::nullopt;
        return fault;
    }
    Value decode(Rules rules, OctetsView octets) const {
        Value value;
        tulvorn_fault fault;
        auto by = static_cast<uint32_t>(rules);
        auto code = tulvorn_decode(held_.get(), by, octets.data(), octets.size(), value.held_.fill(), &fault);
        detail::look(code, fault, rules);
        return value;
    }
    // The fault if the octets are no encoding of a value of the type within the budget: see tulvorn_check_within.
    std::optional<tulvorn_fault> fault_if(Rules rules, OctetsView octets, const tulvorn_budget &budget) const {
        tulvorn_fault fault;
        auto by = static_cast<uint32_t>(rules);
        auto code = tulvorn_check_within(held_.get(), by, octets.data(), octets.size(), &budget, &fault);
        if (code == TULVORN_NO_MEMORY) throw std::bad_alloc();
        if (code == TULVORN_DONE) return std::nullopt;
        return fault;
    }
    // The value, if it takes no more than the budget: see tulvorn_decode_within.
    Value decode(Rules rules, OctetsView octets, const tulvorn_budget &budget) const {
        Value value;
        tulvorn_fault fault;
        auto by = static_cast<uint32_t>(rules);
        auto code = tulvorn_decode_within(held_.get(), by, octets.data(), octets.size(), &budget, value.held_.fill(),
                                          &fault);
        detail::look(code, fault, rules);
        return value;
    }
    // Why the octets are no encoding, with the component in which that shows; empty where they are one.
    std::string explain(Rules rules, OctetsView octets) const {
        detail::Handle words;
        auto by = static_cast<uint32_t>(rules);
        detail::look(tulvorn_explain(held_.get(), by, octets.data(), octets.size(), words.fill()));
        return detail::text_of(words);
    }
    // A session for a value of the type, which has taken no octet.
    Session open(Rules rules) const {
        Session session(rules);
        detail::look(tulvorn_open(held_.get(), static_cast<uint32_t>(rules), session.held_.fill()));
        return session;
    }
    // The first part of a value, also of another type, that does not fit this type, and why; empty where it fits.
    std::string misfit(const Value &value) const {
        detail::Handle words;
        detail::look(tulvorn_misfit(held_.get(), value.held_.get(), words.fill()));
        return detail::text_of(words);
    }
    // Why the JSON shows no value of the type, with the first place where that shows; empty where it shows one.
    std::string explain_json(std::string_view json) const {
        detail::Handle words;
        detail::look(tulvorn_explain_json(held_.get(), detail::octets_of(json), json.size(), words.fill()));
        return detail::text_of(words);
    }
    // What a receiver of this type reads of a message whose sender's type has more or fewer extension additions.
    Newer read_newer(Rules rules, OctetsView octets) const {
        Newer newer;
        detail::Handle fields;
        tulvorn_fault fault;
        size_t count = 0;
        auto by = static_cast<uint32_t>(rules);
        auto code = tulvorn_read_newer(held_.get(), by, octets.data(), octets.size(), newer.value.held_.fill(),
                                       fields.fill(), &fault);
        detail::look(code, fault, rules);
        detail::look(tulvorn_skipped_count(fields.get(), &count));
        for (size_t index = 0; index < count; index++) {
            Skipped field{0, {}};
            size_t size = 0;
            tulvorn_skipped(fields.get(), index, &field.place, nullptr, 0, &size);
            field.octets.resize(size);
            detail::look(tulvorn_skipped(fields.get(), index, &field.place, field.octets.data(), size, &size));
            newer.skipped.push_back(std::move(field));
        }
        return newer;
    }
    // The octets by the other rules of the value whose encoding by these rules the octets are.
    Octets convert(Rules rules, OctetsView octets) const {
        detail::Handle other;
        tulvorn_fault fault;
        auto by = static_cast<uint32_t>(rules);
        auto code = tulvorn_convert(held_.get(), by, octets.data(), octets.size(), other.fill(), &fault);
        detail::look(code, fault, rules);
        return detail::octets_of(other);
    }
    Value from_json(std::string_view json) const {
        Value value;
        tulvorn_fault fault;
        auto code = tulvorn_from_json(held_.get(), detail::octets_of(json), json.size(), value.held_.fill(), &fault);
        if (code == TULVORN_SHAPE) throw Fault(fault, explain_json(json));
        detail::look(code, fault);
        return value;
    }

  private:
    friend class Module;
    detail::Handle held_;
};

// A module that was read.
class Module {
  public:
    explicit Module(std::string_view text) {
        tulvorn_fault fault;
        auto code = tulvorn_module(detail::octets_of(text), text.size(), held_.fill(), &fault);
        if (code == TULVORN_NO_MODULE) throw Fault(fault, explain(text));
        detail::look(code, fault);
    }
    // Why the text is no module, with the line and a mark where that shows; empty where it is one.
    static std::string explain(std::string_view text) {
        detail::Handle words;
        detail::look(tulvorn_explain_module(detail::octets_of(text), text.size(), words.fill()));
        return detail::text_of(words);
    }
    Type type(std::string_view name) const {
        Type type;
        tulvorn_fault fault;
        auto code = tulvorn_type(held_.get(), detail::octets_of(name), name.size(), type.held_.fill(), &fault);
        detail::look(code, fault);
        return type;
    }
    // How the type of the name differs from the published type, as the text says; empty where it says nothing.
    std::string difference(std::string_view name) const {
        detail::Handle words;
        detail::look(tulvorn_difference(held_.get(), detail::octets_of(name), name.size(), words.fill()));
        return detail::text_of(words);
    }
    // The type, if it has at most so many levels.
    Type type(std::string_view name, std::uint32_t levels) const {
        Type type;
        tulvorn_fault fault;
        auto octets = detail::octets_of(name);
        auto code = tulvorn_type_levels(held_.get(), octets, name.size(), levels, type.held_.fill(), &fault);
        detail::look(code, fault);
        return type;
    }

  private:
    detail::Handle held_;
};

// The version of the library.
inline std::string version() {
    size_t size = 0;
    tulvorn_version(nullptr, 0, &size);
    std::string text(size, '\0');
    tulvorn_version(reinterpret_cast<uint8_t *>(text.data()), size, &size);
    return text;
}

}  // namespace tulvorn

#endif
