/* What all calls of the library have to say alike of octets: shared by the programs that try rows, and texts made at
   random. */
#ifndef AGREE_H
#define AGREE_H

#include "reading.h"

enum { ROOM = 1 << 18 };

static long line_number;

#define CHECK(holds)                                               \
    do {                                                           \
        if (!(holds)) {                                            \
            printf("line %ld: not so: %s\n", line_number, #holds); \
            return 1;                                              \
        }                                                          \
    } while (0)

struct octets {
    uint8_t at[ROOM];
    size_t size;
};

static inline int same(const struct octets *one, const struct octets *other) {
    return one->size == other->size && memcmp(one->at, other->at, one->size) == 0;
}

static inline int alike(const tulvorn_fault *one, const tulvorn_fault *other) {
    return one->code == other->code && one->why == other->why && one->at == other->at;
}

/* The octets that a handle holds, in `to`; it is closed. */
static inline int copied(tulvorn_handle *held, struct octets *to) {
    int well = tulvorn_copy(held, to->at, ROOM, &to->size) == TULVORN_DONE;
    tulvorn_close(held);
    return well;
}

/* The encoding of the value by these rules are these octets, by each of the calls that writes it. */
static int writes(tulvorn_handle *value, uint32_t rules, const struct octets *octets) {
    static struct octets made;
    tulvorn_handle out = TULVORN_NONE;
    tulvorn_fault fault;
    size_t size = 0;
    CHECK(tulvorn_encode(value, rules, &out, &fault) == TULVORN_DONE && copied(&out, &made) && same(&made, octets));
    CHECK(tulvorn_encoded_len(value, rules, &size, &fault) == TULVORN_DONE && size == octets->size);
    memset(made.at, 0x5a, octets->size + 1);
    CHECK(tulvorn_encode_into(value, rules, made.at, octets->size, &size, &fault) == TULVORN_DONE);
    CHECK(same(&made, octets) && made.at[octets->size] == 0x5a);
    if (octets->size > 0) {
        CHECK(tulvorn_encode_into(value, rules, made.at, octets->size - 1, &size, &fault) == TULVORN_TOO_SHORT);
        CHECK(fault.at == octets->size);
    }
    return 0;
}

/* The value comes back from its JSON, and from the other rules. */
static int comes_back(tulvorn_handle *type, tulvorn_handle *value, uint32_t rules, const struct octets *octets) {
    static struct octets made;
    tulvorn_handle out = TULVORN_NONE, other = TULVORN_NONE;
    tulvorn_fault fault;
    CHECK(tulvorn_to_json(value, &out, &fault) == TULVORN_DONE && copied(&out, &made));
    CHECK(tulvorn_from_json(type, made.at, made.size, &other, &fault) == TULVORN_DONE);
    CHECK(writes(&other, rules, octets) == 0);
    CHECK(tulvorn_convert(type, rules, octets->at, octets->size, &out, &fault) == TULVORN_DONE && copied(&out, &made));
    CHECK(tulvorn_decode(type, 1 - rules, made.at, made.size, &other, &fault) == TULVORN_DONE);
    CHECK(writes(&other, rules, octets) == 0 && writes(value, 1 - rules, &made) == 0);
    CHECK(tulvorn_convert(type, 1 - rules, made.at, made.size, &out, &fault) == TULVORN_DONE && copied(&out, &made));
    CHECK(same(&made, octets));
    tulvorn_close(&other);
    return 0;
}

/* What a receiver of the type reads of the octets: the value, where they are an encoding, and nothing is skipped. */
static int received(tulvorn_handle *type, uint32_t rules, const struct octets *octets, uint32_t told) {
    static struct octets made;
    tulvorn_handle value = TULVORN_NONE, fields = TULVORN_NONE, out = TULVORN_NONE;
    tulvorn_fault fault;
    uint32_t code = tulvorn_read_newer(type, rules, octets->at, octets->size, &value, &fields, &fault), place;
    size_t count = 0;
    if (told == TULVORN_DONE) CHECK(code == TULVORN_DONE && writes(&value, rules, octets) == 0);
    if (code == TULVORN_DONE) {
        CHECK(tulvorn_skipped_count(&fields, &count) == TULVORN_DONE && (told != TULVORN_DONE || count == 0));
        for (size_t at = 0; at < count; at++)
            CHECK(tulvorn_skipped(&fields, at, &place, made.at, ROOM, &made.size) == TULVORN_DONE && place < 64);
        CHECK(tulvorn_skipped(&fields, count, &place, made.at, ROOM, &made.size) == TULVORN_NO_PATH);
        CHECK(tulvorn_to_json(&value, &out, &fault) == TULVORN_DONE && copied(&out, &made) && made.size > 0);
    } else {
        CHECK(value.at == NULL && fields.at == NULL);
    }
    tulvorn_close(&value);
    tulvorn_close(&fields);
    return 0;
}

/* A session is fed the octets in pieces of `sizes` in turn, and answers as tulvorn_check has. */
static int fed(tulvorn_handle *type, uint32_t rules, const struct octets *octets, const uint8_t sizes[4],
               const tulvorn_fault *told) {
    tulvorn_handle session = TULVORN_NONE, value = TULVORN_NONE;
    tulvorn_fault fault = {TULVORN_MORE, 0, 0};
    size_t used = 0, taken = 0, turn = 0;
    CHECK(tulvorn_open(type, rules, &session) == TULVORN_DONE);
    do {
        size_t left = octets->size - taken, size = sizes[turn++ % 4];
        if (size > left) size = left;
        tulvorn_feed(&session, octets->at + taken, size, &value, &used, &fault);
        taken += fault.code == TULVORN_DONE ? used : size;
    } while (fault.code == TULVORN_MORE && taken < octets->size);
    int done = told->code == TULVORN_DONE || told->code == TULVORN_REST;
    if (done) CHECK(fault.code == TULVORN_DONE && taken == (told->code == TULVORN_DONE ? octets->size : told->at));
    if (told->code == TULVORN_DONE) CHECK(writes(&value, rules, octets) == 0);
    if (told->code == TULVORN_TRUNCATED) CHECK(fault.code == TULVORN_MORE);
    if (told->code == TULVORN_REFUSED) CHECK(alike(&fault, told));
    CHECK(tulvorn_finish(&session, &fault) == (done ? TULVORN_DONE : TULVORN_TRUNCATED) && session.at == NULL);
    if (!done) CHECK(fault.at == told->at - (told->code == TULVORN_REFUSED));
    tulvorn_close(&value);
    return 0;
}

/* All calls that read octets answer alike to these; what tulvorn_check has answered is left in `told`. */
static int agree(tulvorn_handle *type, uint32_t rules, const struct octets *octets, tulvorn_fault *told) {
    static struct octets made;
    tulvorn_handle value = TULVORN_NONE, out = TULVORN_NONE;
    tulvorn_fault fault;
    tulvorn_check(type, rules, octets->at, octets->size, told);
    tulvorn_decode(type, rules, octets->at, octets->size, &value, &fault);
    CHECK(alike(&fault, told) && (value.at != NULL) == (told->code == TULVORN_DONE));
    tulvorn_convert(type, rules, octets->at, octets->size, &out, &fault);
    CHECK(alike(&fault, told) && (out.at != NULL) == (told->code == TULVORN_DONE));
    CHECK(tulvorn_explain(type, rules, octets->at, octets->size, &out) == TULVORN_DONE && copied(&out, &made));
    CHECK((made.size == 0) == (told->code == TULVORN_DONE));
    CHECK(received(type, rules, octets, told->code) == 0);
    if (told->code == TULVORN_DONE)
        CHECK(writes(&value, rules, octets) == 0 && comes_back(type, &value, rules, octets) == 0);
    tulvorn_close(&value);
    return 0;
}

#endif
