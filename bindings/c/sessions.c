/* Messages in pieces, and where values and JSON are none of a type. Exits with 0 where all answers are right, and else
   with 1 and the line of the first that is not. Linked with -Wl,--wrap=malloc -Wl,--wrap=realloc. */
#include "calls.h"

static const char MODULE[] =
    "M DEFINITIONS AUTOMATIC TAGS ::= BEGIN\n"
    "Msg ::= SEQUENCE { id INTEGER (0..7), ok BOOLEAN DEFAULT TRUE, note IA5String (SIZE (0..3)) OPTIONAL }\n"
    "Low ::= SEQUENCE { id INTEGER (0..3), ok BOOLEAN DEFAULT TRUE, note IA5String (SIZE (0..3)) OPTIONAL }\n"
    "Empty ::= NULL\n"
    "Grown ::= ENUMERATED { red, ... }\n"
    "END\n";

/* handles of nothing, and of another kind of object */
static int misused(tulvorn_handle *msg) {
    tulvorn_handle none = TULVORN_NONE, other = TULVORN_NONE;
    tulvorn_fault fault;
    size_t used = 7;
    const void *held = msg->at;
    CHECK(tulvorn_open(&none, TULVORN_PER, &other) == TULVORN_MISUSE && other.at == NULL);
    CHECK(tulvorn_open(msg, 2, &other) == TULVORN_MISUSE && other.at == NULL && msg->at == held);
    CHECK(tulvorn_feed(&none, TEXT("a"), &other, &used, &fault) == TULVORN_MISUSE && fault.code == TULVORN_MISUSE);
    CHECK(tulvorn_feed(msg, TEXT("a"), &other, &used, &fault) == TULVORN_MISUSE && used == 7 && other.at == NULL);
    CHECK(tulvorn_finish(&none, &fault) == TULVORN_MISUSE && fault.code == TULVORN_MISUSE);
    CHECK(tulvorn_finish(msg, &fault) == TULVORN_MISUSE && msg->at == held);
    CHECK(tulvorn_misfit(&none, msg, &other) == TULVORN_MISUSE && msg->at == held);
    CHECK(tulvorn_misfit(msg, &none, &other) == TULVORN_MISUSE && msg->at == held && other.at == NULL);
    CHECK(tulvorn_explain_json(&none, TEXT("{}"), &other) == TULVORN_MISUSE && other.at == NULL);
    CHECK(tulvorn_open(msg, TULVORN_OER, &other) == TULVORN_DONE);
    CHECK(tulvorn_check(&other, TULVORN_OER, NULL, 0, &fault) == TULVORN_MISUSE);
    CHECK(tulvorn_share(&other, &none) == TULVORN_MISUSE && none.at == NULL);
    tulvorn_close(&other);
    return 0;
}

/* a message in two pieces, with octets of the next one behind it */
static int in_pieces(tulvorn_handle *msg) {
    tulvorn_handle session = TULVORN_NONE, value = TULVORN_NONE, json = TULVORN_NONE;
    tulvorn_fault fault;
    size_t used = 7;
    CHECK(tulvorn_open(msg, TULVORN_PER, &session) == TULVORN_DONE);
    CHECK(tulvorn_feed(&session, (const uint8_t[]){0x6b}, 1, &value, &used, &fault) == TULVORN_MORE);
    CHECK(fault.code == TULVORN_MORE && value.at == NULL && used == 7);
    CHECK(says(&fault, TULVORN_PER, "more octets wanted") == 0);
    CHECK(tulvorn_feed(&session, NULL, 0, &value, &used, &fault) == TULVORN_MORE && used == 7);
    CHECK(tulvorn_feed(&session, (const uint8_t[]){0x04, 0x28}, 2, &value, &used, &fault) == TULVORN_DONE && used == 1);
    CHECK(tulvorn_to_json(&value, &json, &fault) == TULVORN_DONE);
    CHECK(holds_text(&json, "{\"id\":5,\"note\":\"A\",\"ok\":true}") == 0);
    const void *held = value.at;
    CHECK(tulvorn_feed(&session, (const uint8_t[]){0x28}, 1, &value, &used, &fault) == TULVORN_SPENT);
    CHECK(value.at == held && used == 1 && says(&fault, TULVORN_PER, "session spent") == 0);
    CHECK(tulvorn_finish(&session, &fault) == TULVORN_DONE && session.at == NULL && fault.code == TULVORN_DONE);
    CHECK(tulvorn_finish(&session, &fault) == TULVORN_MISUSE);
    /* the value outlives its session, and a session the handle of its type */
    CHECK(tulvorn_share(msg, &json) == TULVORN_DONE && tulvorn_open(&json, TULVORN_OER, &session) == TULVORN_DONE);
    tulvorn_close(&json);
    CHECK(tulvorn_feed(&session, (const uint8_t[]){0x40, 0x05, 0x01}, 3, &value, &used, &fault) == TULVORN_MORE);
    CHECK(tulvorn_finish(&session, &fault) == TULVORN_TRUNCATED && fault.at == 3 && session.at == NULL);
    CHECK(says(&fault, TULVORN_OER, "cut short after 3 octets") == 0);
    tulvorn_close(&value);
    return 0;
}

/* octets with which no message begins, refused at the first bit that tells it; and what is told after that */
static int refused_at(tulvorn_handle *msg) {
    tulvorn_handle session = TULVORN_NONE, value = TULVORN_NONE;
    tulvorn_fault fault;
    size_t used = 7;
    CHECK(tulvorn_open(msg, TULVORN_PER, &session) == TULVORN_DONE);
    for (int times = 0; times < 2; times++) {
        CHECK(tulvorn_feed(&session, (const uint8_t[]){0xac}, 1, &value, &used, &fault) == TULVORN_REFUSED);
        CHECK(fault.at == 6 && fault.why == TULVORN_DEFAULT && used == 7 && value.at == NULL);
        CHECK(says(&fault, TULVORN_PER, "refused at bit 6: default") == 0);
    }
    CHECK(tulvorn_finish(&session, &fault) == TULVORN_TRUNCATED && fault.at == 5);
    /* a place is counted over all pieces */
    CHECK(tulvorn_open(msg, TULVORN_PER, &session) == TULVORN_DONE);
    CHECK(tulvorn_feed(&session, (const uint8_t[]){0x6b}, 1, &value, &used, &fault) == TULVORN_MORE);
    CHECK(tulvorn_feed(&session, (const uint8_t[]){0x05}, 1, &value, &used, &fault) == TULVORN_REFUSED);
    CHECK(fault.at == 16 && fault.why == TULVORN_PADDING);
    tulvorn_close(&session);
    return 0;
}

/* all pairs of octets, one by one: what is answered is what tulvorn_check answers to both */
static int one_by_one(tulvorn_handle *type, uint32_t rules) {
    tulvorn_handle session = TULVORN_NONE, value = TULVORN_NONE;
    for (int pair = 0; pair < 65536; pair++) {
        const uint8_t octets[2] = {(uint8_t)(pair >> 8), (uint8_t)pair};
        tulvorn_fault fault = {0, 0, 0}, whole;
        size_t used = 0, at = 0;
        uint32_t code = TULVORN_MORE;
        CHECK(tulvorn_open(type, rules, &session) == TULVORN_DONE);
        while (at < 2 && code == TULVORN_MORE) code = tulvorn_feed(&session, octets + at++, 1, &value, &used, &fault);
        uint32_t wanted = tulvorn_check(type, rules, octets, 2, &whole);
        if (code == TULVORN_DONE) {
            CHECK(wanted == (at == 2 ? TULVORN_DONE : TULVORN_REST) && used == 1);
            CHECK(tulvorn_finish(&session, &fault) == TULVORN_DONE);
        } else if (code == TULVORN_MORE) {
            CHECK(wanted == TULVORN_TRUNCATED && tulvorn_finish(&session, &fault) == TULVORN_TRUNCATED);
            CHECK(fault.at == whole.at);
        } else {
            CHECK(code == wanted && fault.at == whole.at && fault.why == whole.why);
        }
    }
    tulvorn_close(&session);
    tulvorn_close(&value);
    return 0;
}

/* where a value is none of a type, of another version, or with an item that the type has not */
static int misfits(tulvorn_handle *module, tulvorn_handle *msg) {
    tulvorn_handle low = TULVORN_NONE, value = TULVORN_NONE, words = TULVORN_NONE, skipped = TULVORN_NONE;
    tulvorn_fault fault;
    CHECK(tulvorn_type(module, TEXT("Low"), &low, &fault) == TULVORN_DONE);
    CHECK(tulvorn_from_json(msg, TEXT("{\"id\":5}"), &value, &fault) == TULVORN_DONE);
    CHECK(tulvorn_misfit(msg, &value, &words) == TULVORN_DONE && holds_text(&words, "") == 0);
    CHECK(tulvorn_misfit(&low, &value, &words) == TULVORN_DONE);
    CHECK(holds_text(&words, "$.id: 5 is not in 0..3") == 0);
    CHECK(tulvorn_misfit(&low, &words, &value) == TULVORN_MISUSE);
    CHECK(tulvorn_type(module, TEXT("Grown"), &low, &fault) == TULVORN_DONE);
    CHECK(tulvorn_read_newer(&low, TULVORN_OER, (const uint8_t[]){0x02}, 1, &value, &skipped, &fault) == TULVORN_DONE);
    CHECK(tulvorn_misfit(&low, &value, &words) == TULVORN_DONE && holds_text(&words, "$: no item 2") == 0);
    CHECK(tulvorn_explain_json(msg, TEXT("{\"id\":5}"), &words) == TULVORN_DONE && holds_text(&words, "") == 0);
    CHECK(tulvorn_explain_json(msg, TEXT("{\"id\":9}"), &words) == TULVORN_DONE);
    CHECK(holds_text(&words, "not of the type") == 0);
    CHECK(tulvorn_explain_json(msg, TEXT("{\"id\":5,\"ok\":1}"), &words) == TULVORN_DONE);
    CHECK(holds_text(&words, "not of the type's shape at $.ok") == 0);
    CHECK(tulvorn_explain_json(msg, TEXT("{"), &words) == TULVORN_NO_JSON);
    CHECK(holds_text(&words, "not of the type's shape at $.ok") == 0);
    CHECK(tulvorn_explain_json(msg, TEXT("{\"id\":5,\"id\":5}"), &words) == TULVORN_DONE);
    CHECK(holds_text(&words, "$.id: the object has this key twice") == 0);
    tulvorn_close(&low);
    tulvorn_close(&value);
    tulvorn_close(&words);
    tulvorn_close(&skipped);
    return 0;
}

/* a piece that ends a message, and one that does not, with each of their allocations failing in turn */
static int fed_without_memory(tulvorn_handle *msg, const uint8_t *octets, size_t size, uint32_t wanted, long *refused) {
    tulvorn_handle session = TULVORN_NONE, value = TULVORN_NONE;
    tulvorn_fault fault;
    long count = 1;
    for (long at = 0; at <= count; at++) {
        size_t used = 7;
        CHECK(tulvorn_open(msg, TULVORN_PER, &session) == TULVORN_DONE);
        asked = 0;
        left = at == 0 ? -1 : at;
        uint32_t code = tulvorn_feed(&session, octets, size, &value, &used, &fault);
        CHECK(left == -1 && code == fault.code);
        if (at == 0) count = asked;
        if (code == TULVORN_NO_MEMORY) {
            CHECK(at > 0 && value.at == NULL && used == 7);
            CHECK(tulvorn_feed(&session, octets, size, &value, &used, &fault) == TULVORN_SPENT && value.at == NULL);
            ++*refused;
        } else {
            CHECK(code == wanted && (value.at != NULL) == (code == TULVORN_DONE));
        }
        asked = 0;
        uint32_t ended = tulvorn_finish(&session, &fault);
        CHECK(asked == 0 && session.at == NULL);
        /* the last allocation is that of the handle of the value: the octets that were taken are an encoding by then */
        int is_whole = wanted == TULVORN_DONE && at == count;
        CHECK(code != TULVORN_NO_MEMORY || ended == (is_whole ? TULVORN_DONE : TULVORN_TRUNCATED));
        CHECK(ended != TULVORN_TRUNCATED || code != TULVORN_NO_MEMORY || fault.at == 0);
        tulvorn_close(&value);
    }
    CHECK(count > 0);
    return 0;
}

static int memory(tulvorn_handle *module, tulvorn_handle *msg, long *count) {
    tulvorn_handle value = TULVORN_NONE, low = TULVORN_NONE;
    tulvorn_fault fault;
    long refused = 0;
    CHECK(tulvorn_type(module, TEXT("Low"), &low, &fault) == TULVORN_DONE);
    CHECK(tulvorn_from_json(msg, TEXT("{\"id\":5}"), &value, &fault) == TULVORN_DONE);
    EACH_FAILS(it, tulvorn_open(msg, TULVORN_PER, &it));
    EACH_FAILS(it, tulvorn_open(msg, TULVORN_OER, &it));
    EACH_FAILS(it, tulvorn_misfit(&low, &value, &it));
    EACH_FAILS(it, tulvorn_misfit(msg, &value, &it));
    EACH_FAILS(it, tulvorn_explain_json(msg, TEXT("{\"id\":5,\"ok\":1}"), &it));
    EACH_FAILS(it, tulvorn_explain_json(msg, TEXT("{\"id\":9}"), &it));
    CHECK(fed_without_memory(msg, (const uint8_t[]){0x6b, 0x04}, 2, TULVORN_DONE, &refused) == 0);
    CHECK(fed_without_memory(msg, (const uint8_t[]){0x6b}, 1, TULVORN_MORE, &refused) == 0);
    tulvorn_close(&value);
    tulvorn_close(&low);
    *count = refused;
    return 0;
}

static int calls(long *refused) {
    tulvorn_handle module = TULVORN_NONE, msg = TULVORN_NONE, empty = TULVORN_NONE, session = TULVORN_NONE;
    tulvorn_fault fault;
    CHECK(tulvorn_module(TEXT(MODULE), &module, &fault) == TULVORN_DONE);
    CHECK(tulvorn_type(&module, TEXT("Msg"), &msg, &fault) == TULVORN_DONE);
    CHECK(tulvorn_type(&module, TEXT("Empty"), &empty, &fault) == TULVORN_DONE);
    CHECK(misused(&msg) == 0 && in_pieces(&msg) == 0 && refused_at(&msg) == 0);
    CHECK(one_by_one(&msg, TULVORN_PER) == 0 && one_by_one(&msg, TULVORN_OER) == 0);
    /* no octets are the encoding of a NULL in OER, and not in PER */
    CHECK(tulvorn_open(&empty, TULVORN_OER, &session) == TULVORN_DONE);
    CHECK(tulvorn_finish(&session, &fault) == TULVORN_DONE);
    CHECK(tulvorn_open(&empty, TULVORN_PER, &session) == TULVORN_DONE);
    CHECK(tulvorn_finish(&session, &fault) == TULVORN_TRUNCATED && fault.at == 0);
    CHECK(misfits(&module, &msg) == 0 && memory(&module, &msg, refused) == 0);
    tulvorn_close(&module);
    tulvorn_close(&msg);
    tulvorn_close(&empty);
    return 0;
}

int main(void) {
    long refused = 0;
    if (calls(&refused)) return 1;
    printf("C in pieces: passed, with %ld allocations refused\n", refused);
    return 0;
}
