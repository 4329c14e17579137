/* Calls each function of the library, and makes each allocation fail in turn. Exits with 0 where all answers are right,
   and else with 1 and the line of the first that is not. Linked with -Wl,--wrap=malloc -Wl,--wrap=realloc. */
#include "calls.h"

static const char MODULE[] =
    "M DEFINITIONS AUTOMATIC TAGS ::= BEGIN\n"
    "Msg ::= SEQUENCE { id INTEGER (0..7), ok BOOLEAN DEFAULT TRUE, note IA5String (SIZE (0..3)) OPTIONAL }\n"
    "All ::= SEQUENCE { far INTEGER, colour ENUMERATED { red, green }, key OCTET STRING, bits BIT STRING,\n"
    "    one CHOICE { number INTEGER (0..255), none NULL }, list SEQUENCE OF Msg, word UTF8String }\n"
    "Old ::= SEQUENCE { a BOOLEAN, ... }\n"
    "Wide ::= INTEGER\n"
    "END\n";

static const char ALL[] =
    "{\"far\":-70000000000,\"colour\":\"green\",\"key\":\"00ff10\",\"bits\":\"101\",\"one\":{\"number\":200},"
    "\"list\":[{\"id\":5,\"note\":\"A\"},{\"id\":0}],\"word\":\"\xc3\xa4\"}";

/* handles of nothing are answered, and closed */
static int nothing(void) {
    tulvorn_handle none = TULVORN_NONE, other = TULVORN_NONE;
    tulvorn_fault fault;
    uint8_t into[4] = {9, 9, 9, 9};
    uint32_t word = 7;
    size_t size = 7;
    int64_t number = 7;
    uint64_t without_sign = 7;
    CHECK(tulvorn_interface() == TULVORN_INTERFACE);
    CHECK(tulvorn_type(&none, TEXT("Msg"), &other, &fault) == TULVORN_MISUSE && fault.code == TULVORN_MISUSE);
    CHECK(tulvorn_type_levels(&none, TEXT("Msg"), 64, &other, &fault) == TULVORN_MISUSE);
    CHECK(tulvorn_difference(&none, TEXT("Msg"), &other) == TULVORN_MISUSE);
    CHECK(tulvorn_share(&none, &other) == TULVORN_MISUSE);
    CHECK(tulvorn_check(&none, TULVORN_PER, into, 4, &fault) == TULVORN_MISUSE);
    CHECK(tulvorn_decode(&none, TULVORN_PER, into, 4, &other, &fault) == TULVORN_MISUSE);
    CHECK(tulvorn_encode(&none, TULVORN_PER, &other, &fault) == TULVORN_MISUSE);
    CHECK(tulvorn_encoded_len(&none, TULVORN_PER, &size, &fault) == TULVORN_MISUSE && size == 7);
    CHECK(tulvorn_encode_into(&none, TULVORN_PER, into, 4, &size, &fault) == TULVORN_MISUSE && into[0] == 9);
    CHECK(tulvorn_convert(&none, TULVORN_PER, into, 4, &other, &fault) == TULVORN_MISUSE);
    CHECK(tulvorn_to_json(&none, &other, &fault) == TULVORN_MISUSE);
    CHECK(tulvorn_from_json(&none, TEXT("{}"), &other, &fault) == TULVORN_MISUSE);
    CHECK(tulvorn_kind(&none, NULL, 0, &word) == TULVORN_MISUSE && word == 7);
    CHECK(tulvorn_boolean(&none, NULL, 0, &word) == TULVORN_MISUSE && word == 7);
    CHECK(tulvorn_integer(&none, NULL, 0, &number) == TULVORN_MISUSE && number == 7);
    CHECK(tulvorn_unsigned(&none, NULL, 0, &without_sign) == TULVORN_MISUSE && without_sign == 7);
    CHECK(tulvorn_count(&none, NULL, 0, &size) == TULVORN_MISUSE && size == 7);
    CHECK(tulvorn_bit(&none, NULL, 0, 0, &word) == TULVORN_MISUSE && word == 7);
    CHECK(tulvorn_octets(&none, NULL, 0, into, 4, &size) == TULVORN_MISUSE && size == 7);
    CHECK(tulvorn_text(&none, NULL, 0, into, 4, &size) == TULVORN_MISUSE && size == 7);
    CHECK(tulvorn_name(&none, NULL, 0, into, 4, &size) == TULVORN_MISUSE && size == 7);
    CHECK(tulvorn_copy(&none, into, 4, &size) == TULVORN_MISUSE && size == 7 && into[0] == 9);
    CHECK(tulvorn_explain(&none, TULVORN_PER, into, 4, &other) == TULVORN_MISUSE);
    CHECK(tulvorn_skipped_count(&none, &size) == TULVORN_MISUSE && size == 7);
    CHECK(tulvorn_skipped(&none, 0, &word, into, 4, &size) == TULVORN_MISUSE && size == 7 && word == 7);
    tulvorn_close(&none);
    tulvorn_close(&none);
    CHECK(none.at == NULL && other.at == NULL);
    return 0;
}

/* texts that are no module */
static int modules(void) {
    tulvorn_handle module = TULVORN_NONE, type = TULVORN_NONE, words = TULVORN_NONE;
    tulvorn_fault fault;
    uint8_t into[64];
    size_t size;
    CHECK(tulvorn_module(NULL, 0, &module, &fault) == TULVORN_NO_MODULE && fault.why == TULVORN_UNEXPECTED);
    CHECK(fault.at == 0 && module.at == NULL);
    static const char unknown[] = "M DEFINITIONS AUTOMATIC TAGS ::= BEGIN T ::= U END";
    CHECK(tulvorn_module(TEXT(unknown), &module, &fault) == TULVORN_NO_MODULE);
    CHECK(fault.why == TULVORN_UNKNOWN);
    CHECK(tulvorn_explain_module(TEXT(unknown), &words) == TULVORN_DONE);
    CHECK(tulvorn_copy(&words, into, sizeof into, &size) == TULVORN_TOO_SHORT && size > sizeof unknown);
    CHECK(tulvorn_explain_module(TEXT("M \xff"), &words) == TULVORN_NOT_TEXT && words.at != NULL);
    CHECK(tulvorn_explain_module(TEXT(MODULE), &words) == TULVORN_DONE && holds_text(&words, "") == 0);
    CHECK(tulvorn_module(TEXT("M \xff"), &module, &fault) == TULVORN_NOT_TEXT);
    CHECK(tulvorn_module(TEXT("M %"), &module, &fault) == TULVORN_NO_MODULE && fault.why == TULVORN_BAD_CHARACTER);
    CHECK(fault.at == 2);
    CHECK(tulvorn_module(TEXT(MODULE), &module, &fault) == TULVORN_DONE && fault.code == TULVORN_DONE);
    CHECK(tulvorn_type(&module, TEXT("Other"), &type, &fault) == TULVORN_NO_NAME && type.at == NULL);
    CHECK(tulvorn_type(&module, TEXT("\xff"), &type, &fault) == TULVORN_NOT_TEXT);
    CHECK(tulvorn_type(&module, TEXT("Msg"), &type, &fault) == TULVORN_DONE);
    CHECK(tulvorn_check(&module, TULVORN_PER, NULL, 0, &fault) == TULVORN_MISUSE);
    CHECK(tulvorn_words(&fault, TULVORN_PER, &words) == TULVORN_DONE);
    CHECK(tulvorn_copy(&words, into, sizeof into, &size) == TULVORN_DONE);
    CHECK(size == 6 && memcmp(into, "misuse", 6) == 0);
    CHECK(tulvorn_copy(&type, into, sizeof into, &size) == TULVORN_MISUSE);
    tulvorn_close(&module);
    tulvorn_close(&type);
    tulvorn_close(&words);
    return 0;
}

/* octets that are an encoding, or are none */
static int messages(const tulvorn_handle *type) {
    const uint8_t good[2] = {0x6b, 0x04}, bad[1] = {0xac}, more[2] = {0x28, 0x00};
    tulvorn_handle value = TULVORN_NONE, octets = TULVORN_NONE;
    tulvorn_fault fault;
    uint8_t into[16];
    size_t size;
    CHECK(tulvorn_check(type, TULVORN_PER, good, 2, &fault) == TULVORN_DONE);
    CHECK(tulvorn_check(type, 2, good, 2, &fault) == TULVORN_MISUSE);
    CHECK(tulvorn_check(type, TULVORN_PER, bad, 1, &fault) == TULVORN_REFUSED);
    CHECK(fault.at == 6 && fault.why == TULVORN_DEFAULT && says(&fault, TULVORN_PER, "refused at bit 6: default") == 0);
    CHECK(tulvorn_check(type, TULVORN_PER, good, 1, &fault) == TULVORN_TRUNCATED && fault.at == 8);
    CHECK(says(&fault, TULVORN_PER, "cut short after 8 bits") == 0);
    CHECK(tulvorn_check(type, TULVORN_PER, more, 2, &fault) == TULVORN_REST && fault.at == 1);
    CHECK(says(&fault, TULVORN_OER, "octets left after 1") == 0);
    CHECK(tulvorn_check(type, TULVORN_PER, NULL, 0, &fault) == TULVORN_TRUNCATED && fault.at == 0);
    CHECK(tulvorn_words(&fault, 2, &value) == TULVORN_MISUSE && value.at == NULL);
    CHECK(tulvorn_decode(type, TULVORN_PER, bad, 1, &value, &fault) == TULVORN_REFUSED && value.at == NULL);
    CHECK(tulvorn_decode(type, TULVORN_PER, good, 2, &value, &fault) == TULVORN_DONE);
    CHECK(tulvorn_decode(type, TULVORN_PER, bad, 1, &value, &fault) == TULVORN_REFUSED && value.at != NULL);
    CHECK(tulvorn_encode(&value, TULVORN_PER, &octets, &fault) == TULVORN_DONE);
    CHECK(tulvorn_copy(&octets, into, sizeof into, &size) == TULVORN_DONE && size == 2 && memcmp(into, good, 2) == 0);
    CHECK(tulvorn_copy(&octets, into, 1, &size) == TULVORN_TOO_SHORT && size == 2);
    CHECK(tulvorn_copy(&octets, NULL, 0, &size) == TULVORN_TOO_SHORT && size == 2);
    CHECK(tulvorn_encode(&value, 7, &octets, &fault) == TULVORN_MISUSE && octets.at != NULL);
    CHECK(tulvorn_encode(&octets, TULVORN_PER, &value, &fault) == TULVORN_MISUSE && value.at != NULL);
    CHECK(tulvorn_encoded_len(&value, TULVORN_OER, &size, &fault) == TULVORN_DONE && size == 4);
    memset(into, 9, sizeof into);
    CHECK(tulvorn_encode_into(&value, TULVORN_OER, into, 3, &size, &fault) == TULVORN_TOO_SHORT && fault.at == 4);
    CHECK(into[0] == 9 && size == 4 && says(&fault, TULVORN_OER, "too short") == 0);
    CHECK(tulvorn_encode_into(&value, TULVORN_OER, into, sizeof into, &size, &fault) == TULVORN_DONE && size == 4);
    CHECK(memcmp(into, "\x40\x05\x01\x41\x09", 5) == 0);
    CHECK(tulvorn_convert(type, TULVORN_OER, into, 4, &octets, &fault) == TULVORN_DONE);
    CHECK(tulvorn_copy(&octets, into, sizeof into, &size) == TULVORN_DONE && size == 2 && memcmp(into, good, 2) == 0);
    CHECK(tulvorn_convert(type, TULVORN_OER, good, 2, &octets, &fault) == TULVORN_REFUSED && octets.at != NULL);
    CHECK(tulvorn_to_json(&value, &octets, &fault) == TULVORN_DONE);
    uint8_t json[64];
    static const char shown[] = "{\"id\":5,\"note\":\"A\",\"ok\":true}";
    CHECK(tulvorn_copy(&octets, json, sizeof json, &size) == TULVORN_DONE && size == strlen(shown));
    CHECK(memcmp(json, shown, size) == 0);
    tulvorn_close(&value);
    tulvorn_close(&octets);
    return 0;
}

/* a message of a newer sender: an addition that the type has not, and an item */
static int newer(const tulvorn_handle *module) {
    tulvorn_handle old = TULVORN_NONE, value = TULVORN_NONE, skipped = TULVORN_NONE, words = TULVORN_NONE;
    tulvorn_fault fault;
    uint8_t into[4] = {9};
    uint32_t place = 7, truth = 0;
    size_t size = 7;
    CHECK(tulvorn_type(module, TEXT("Old"), &old, &fault) == TULVORN_DONE);
    CHECK(tulvorn_read_newer(&old, 2, NULL, 0, &value, &skipped, &fault) == TULVORN_MISUSE);
    CHECK(tulvorn_read_newer(&old, TULVORN_OER, (const uint8_t[]){0x80, 0xff, 0x02, 0x07, 0x80, 0x01, 0x2a}, 7, &value,
                             &skipped, &fault) == TULVORN_DONE);
    CHECK(tulvorn_boolean(&value, TEXT("a"), &truth) == TULVORN_DONE && truth == 1);
    CHECK(tulvorn_skipped_count(&skipped, &size) == TULVORN_DONE && size == 1);
    CHECK(tulvorn_skipped(&skipped, 0, &place, into, sizeof into, &size) == TULVORN_DONE);
    CHECK(place == 0 && size == 1 && into[0] == 0x2a);
    CHECK(tulvorn_skipped(&skipped, 0, &place, into, 0, &size) == TULVORN_TOO_SHORT && size == 1);
    CHECK(tulvorn_skipped(&skipped, 1, &place, into, sizeof into, &size) == TULVORN_NO_PATH && into[0] == 0x2a);
    CHECK(tulvorn_skipped(&value, 0, &place, into, sizeof into, &size) == TULVORN_MISUSE);
    CHECK(tulvorn_read_newer(&old, TULVORN_OER, (const uint8_t[]){0x80}, 1, &value, &skipped, &fault) ==
          TULVORN_CUT_MESSAGE);
    CHECK(value.at != NULL && skipped.at != NULL && says(&fault, TULVORN_OER, "cut short") == 0);
    CHECK(tulvorn_explain(&old, TULVORN_PER, (const uint8_t[]){0x01}, 1, &words) == TULVORN_DONE);
    CHECK(tulvorn_copy(&words, NULL, 0, &size) == TULVORN_TOO_SHORT && size > 10);
    CHECK(tulvorn_explain(&old, TULVORN_PER, (const uint8_t[]){0x00}, 1, &words) == TULVORN_DONE);
    CHECK(tulvorn_copy(&words, NULL, 0, &size) == TULVORN_DONE && size == 0);
    CHECK(tulvorn_explain(&old, 2, NULL, 0, &words) == TULVORN_MISUSE);
    tulvorn_close(&words);
    tulvorn_close(&skipped);
    tulvorn_close(&value);
    tulvorn_close(&old);
    return 0;
}

static int name_is(const tulvorn_handle *value, const char *path, const char *wanted) {
    uint8_t into[32];
    size_t size = 0;
    CHECK(tulvorn_name(value, TEXT(path), into, sizeof into, &size) == TULVORN_DONE);
    CHECK(size == strlen(wanted) && memcmp(into, wanted, size) == 0);
    return 0;
}

/* a value of each kind */
static int parts(const tulvorn_handle *type) {
    tulvorn_handle value = TULVORN_NONE;
    tulvorn_fault fault;
    uint8_t into[16] = {9};
    uint32_t word;
    int64_t number = 7;
    size_t size;
    CHECK(tulvorn_from_json(type, TEXT("{"), &value, &fault) == TULVORN_NO_JSON && value.at == NULL);
    CHECK(tulvorn_from_json(type, TEXT("{}"), &value, &fault) == TULVORN_SHAPE);
    CHECK(tulvorn_from_json(type, TEXT("{\"a\":1,\"a\":1}"), &value, &fault) == TULVORN_SHAPE && value.at == NULL);
    CHECK(tulvorn_from_json(type, TEXT(ALL), &value, &fault) == TULVORN_DONE);
    CHECK(tulvorn_integer(&value, TEXT("far"), &number) == TULVORN_DONE && number == -70000000000);
    CHECK(tulvorn_integer(&value, TEXT("one.number"), &number) == TULVORN_DONE && number == 200);
    CHECK(tulvorn_integer(&value, TEXT("list[0].id"), &number) == TULVORN_DONE && number == 5);
    CHECK(tulvorn_integer(&value, TEXT("$.list[1].id"), &number) == TULVORN_DONE && number == 0);
    CHECK(tulvorn_integer(&value, TEXT("list[2].id"), &number) == TULVORN_ABSENT && number == 0);
    CHECK(tulvorn_integer(&value, TEXT("key"), &number) == TULVORN_OTHER_KIND && number == 0);
    uint64_t without_sign = 7;
    CHECK(tulvorn_unsigned(&value, TEXT("one.number"), &without_sign) == TULVORN_DONE && without_sign == 200);
    CHECK(tulvorn_unsigned(&value, TEXT("far"), &without_sign) == TULVORN_OTHER_KIND && without_sign == 200);
    CHECK(tulvorn_unsigned(&value, TEXT("list[2].id"), &without_sign) == TULVORN_ABSENT && without_sign == 200);
    CHECK(tulvorn_unsigned(&value, TEXT("key"), &without_sign) == TULVORN_OTHER_KIND && without_sign == 200);
    CHECK(tulvorn_integer(&value, TEXT("\xff"), &number) == TULVORN_NOT_TEXT);
    CHECK(tulvorn_boolean(&value, TEXT("list[0].ok"), &word) == TULVORN_DONE && word == 1);
    CHECK(tulvorn_boolean(&value, TEXT("far"), &word) == TULVORN_OTHER_KIND && word == 1);
    CHECK(tulvorn_text(&value, TEXT("list[0].note"), into, sizeof into, &size) == TULVORN_DONE && size == 1);
    CHECK(into[0] == 'A');
    CHECK(tulvorn_text(&value, TEXT("list[1].note"), into, sizeof into, &size) == TULVORN_ABSENT);
    CHECK(tulvorn_text(&value, TEXT("word"), into, sizeof into, &size) == TULVORN_DONE && size == 2);
    CHECK(tulvorn_text(&value, TEXT("key"), into, sizeof into, &size) == TULVORN_OTHER_KIND);
    CHECK(tulvorn_octets(&value, TEXT("key"), into, 2, &size) == TULVORN_TOO_SHORT && size == 3 && into[0] == 0xc3);
    CHECK(tulvorn_octets(&value, TEXT("key"), into, 3, &size) == TULVORN_DONE && memcmp(into, "\x00\xff\x10", 3) == 0);
    CHECK(tulvorn_octets(&value, TEXT("word"), into, 3, &size) == TULVORN_OTHER_KIND);
    CHECK(name_is(&value, "colour", "green") == 0 && name_is(&value, "one", "number") == 0);
    CHECK(tulvorn_name(&value, TEXT("far"), into, 3, &size) == TULVORN_OTHER_KIND);
    CHECK(tulvorn_count(&value, TEXT("list"), &size) == TULVORN_DONE && size == 2);
    CHECK(tulvorn_count(&value, TEXT("bits"), &size) == TULVORN_DONE && size == 3);
    CHECK(tulvorn_count(&value, NULL, 0, &size) == TULVORN_DONE && size == 0);
    CHECK(tulvorn_bit(&value, TEXT("bits"), 1, &word) == TULVORN_DONE && word == 0);
    CHECK(tulvorn_bit(&value, TEXT("bits"), 2, &word) == TULVORN_DONE && word == 1);
    CHECK(tulvorn_bit(&value, TEXT("bits"), 3, &word) == TULVORN_OTHER_KIND && word == 1);
    static const char *const paths[10] = {"list[0].ok", "one.none", "far", "colour", "bits",
                                          "key",        "word",     "",    "list",   "one"};
    for (uint32_t kind = 1; kind <= 10; kind++) {
        if (kind == TULVORN_NULL) continue;
        CHECK(tulvorn_kind(&value, TEXT(paths[kind - 1]), &word) == TULVORN_DONE && word == kind);
    }
    /* no value of the type has such a part, or this one has none */
    static const char *const misspelt[] = {"fra",      "list.id", "list[0].nota", "list[9].nota", "one.nobody",
                                           "far.deep", "far[0]",  "one[0]",       "bits[1]",      "list[1.5]",
                                           "0",        "one none", "$$.far"};
    static const char *const absent[] = {"list[2]", "list[1].note", "list[999999999].id", "$.one.none", ".list[2].ok"};
    for (size_t at = 0; at < sizeof misspelt / sizeof *misspelt; at++) {
        CHECK(tulvorn_kind(&value, TEXT(misspelt[at]), &word) == TULVORN_NO_PATH);
    }
    for (size_t at = 0; at < sizeof absent / sizeof *absent; at++) {
        CHECK(tulvorn_kind(&value, TEXT(absent[at]), &word) == TULVORN_ABSENT);
    }
    tulvorn_close(&value);
    return 0;
}

/* a value that takes more than the budget: of a list of 3, 4 entries, and an octet for each of a string */
static int budgets(void) {
    static const char text[] =
        "M DEFINITIONS AUTOMATIC TAGS ::= BEGIN L ::= SEQUENCE OF BOOLEAN S ::= SEQUENCE { a OCTET STRING, b NULL OPTIONAL }\n"
        "Many ::= SEQUENCE OF SEQUENCE { ok BOOLEAN, a NULL, b NULL, c NULL, d NULL, e NULL, f NULL } END";
    const uint8_t list[5] = {1, 3, 0, 0, 0}, string[5] = {0, 3, 1, 2, 3}, cut[3] = {1, 3, 0};
    tulvorn_handle module = TULVORN_NONE, type = TULVORN_NONE, value = TULVORN_NONE;
    tulvorn_budget four = {4, 0}, three = {3, 0}, strings = {3, 3}, fewer = {3, 2};
    tulvorn_fault fault;
    CHECK(tulvorn_module(TEXT(text), &module, &fault) == TULVORN_DONE);
    CHECK(tulvorn_type(&module, TEXT("L"), &type, &fault) == TULVORN_DONE);
    CHECK(tulvorn_check_within(&value, TULVORN_OER, list, 5, &four, &fault) == TULVORN_MISUSE);
    CHECK(tulvorn_check_within(&type, 2, list, 5, &four, &fault) == TULVORN_MISUSE);
    CHECK(tulvorn_decode_within(&type, 2, list, 5, &four, &value, &fault) == TULVORN_MISUSE && value.at == NULL);
    CHECK(tulvorn_check_within(&type, TULVORN_OER, list, 5, &four, &fault) == TULVORN_DONE);
    CHECK(tulvorn_check_within(&type, TULVORN_OER, list, 5, &three, &fault) == TULVORN_OVER_BUDGET);
    CHECK(fault.code == TULVORN_OVER_BUDGET && fault.at == 0 && says(&fault, TULVORN_OER, "over budget") == 0);
    CHECK(tulvorn_check_within(&type, TULVORN_OER, cut, 3, &four, &fault) == TULVORN_TRUNCATED && fault.at == 3);
    CHECK(tulvorn_decode_within(&type, TULVORN_OER, list, 5, &three, &value, &fault) == TULVORN_OVER_BUDGET);
    CHECK(value.at == NULL);
    CHECK(tulvorn_decode_within(&type, TULVORN_OER, list, 5, &four, &value, &fault) == TULVORN_DONE);
    size_t size = 0;
    CHECK(tulvorn_count(&value, NULL, 0, &size) == TULVORN_DONE && size == 3);
    CHECK(tulvorn_type(&module, TEXT("S"), &type, &fault) == TULVORN_DONE);
    CHECK(tulvorn_check_within(&type, TULVORN_OER, string, 5, &strings, &fault) == TULVORN_DONE);
    CHECK(tulvorn_check_within(&type, TULVORN_OER, string, 5, &fewer, &fault) == TULVORN_OVER_BUDGET);
    /* an octet an element, and six NULLs in each: what is over the budget takes no more memory than the plan of the type */
    uint8_t many[102] = {1, 100};
    CHECK(tulvorn_type(&module, TEXT("Many"), &type, &fault) == TULVORN_DONE);
    asked = 0;
    CHECK(tulvorn_check_within(&type, TULVORN_OER, many, 102, &four, &fault) == TULVORN_OVER_BUDGET && asked < 100);
    tulvorn_close(&value);
    tulvorn_close(&type);
    tulvorn_close(&module);
    return 0;
}

/* integers up to 2^64 - 1: those above 2^63 - 1 are told without a sign alone, and others as far as they are not negative */
static int wide_integers(const tulvorn_handle *module) {
    static const struct {
        const char *json;
        uint64_t number;
        const char octets[11];
        size_t size;
    } rows[3] = {{"9223372036854775807", INT64_MAX, "\x08\x7f\xff\xff\xff\xff\xff\xff\xff", 9},
                 {"9223372036854775808", (uint64_t)INT64_MAX + 1, "\x09\x00\x80\x00\x00\x00\x00\x00\x00\x00", 10},
                 {"18446744073709551615", UINT64_MAX, "\x09\x00\xff\xff\xff\xff\xff\xff\xff\xff", 10}};
    tulvorn_handle type = TULVORN_NONE, value = TULVORN_NONE, made = TULVORN_NONE;
    tulvorn_fault fault;
    CHECK(tulvorn_type(module, TEXT("Wide"), &type, &fault) == TULVORN_DONE);
    for (int row = 0; row < 3; row++) {
        for (uint32_t rules = TULVORN_PER; rules <= TULVORN_OER; rules++) {
            uint8_t into[32];
            int64_t number = 7;
            uint64_t without_sign = 7;
            size_t size;
            CHECK(tulvorn_from_json(&type, TEXT(rows[row].json), &value, &fault) == TULVORN_DONE);
            CHECK(tulvorn_encode_into(&value, rules, into, sizeof into, &size, &fault) == TULVORN_DONE);
            CHECK(size == rows[row].size && memcmp(into, rows[row].octets, size) == 0);
            tulvorn_close(&value);
            CHECK(tulvorn_decode(&type, rules, into, size, &value, &fault) == TULVORN_DONE);
            CHECK(tulvorn_unsigned(&value, NULL, 0, &without_sign) == TULVORN_DONE);
            CHECK(without_sign == rows[row].number);
            CHECK(tulvorn_integer(&value, NULL, 0, &number) == (row ? TULVORN_OTHER_KIND : TULVORN_DONE));
            CHECK(number == (row ? 7 : INT64_MAX));
            CHECK(tulvorn_to_json(&value, &made, &fault) == TULVORN_DONE);
            CHECK(tulvorn_copy(&made, into, sizeof into, &size) == TULVORN_DONE);
            CHECK(size == strlen(rows[row].json) && memcmp(into, rows[row].json, size) == 0);
            tulvorn_close(&made);
            tulvorn_close(&value);
        }
    }
    CHECK(tulvorn_from_json(&type, TEXT("18446744073709551616"), &value, &fault) == TULVORN_SHAPE && value.at == NULL);
    tulvorn_close(&type);
    return 0;
}

static int memory(const tulvorn_handle *module, const tulvorn_handle *msg, const tulvorn_handle *all, long *count) {
    const uint8_t good[2] = {0x6b, 0x04};
    tulvorn_handle value = TULVORN_NONE;
    tulvorn_fault fault;
    uint8_t into[64];
    int64_t number;
    size_t size;
    long refused = 0;
    CHECK(tulvorn_from_json(all, TEXT(ALL), &value, &fault) == TULVORN_DONE);
    EACH_FAILS(it, tulvorn_module(TEXT(MODULE), &it, &fault));
    EACH_FAILS(it, tulvorn_explain_module(TEXT(MODULE), &it));
    EACH_FAILS(it, tulvorn_explain_module(TEXT("M DEFINITIONS AUTOMATIC TAGS ::= BEGIN T ::= U END"), &it));
    EACH_FAILS(it, tulvorn_type(module, TEXT("All"), &it, &fault));
    EACH_FAILS(it, tulvorn_share(all, &it));
    EACH_FAILS(it, tulvorn_decode(msg, TULVORN_PER, good, 2, &it, &fault));
    const tulvorn_budget most = {100, 100};
    EACH_FAILS(it, tulvorn_decode_within(msg, TULVORN_PER, good, 2, &most, &it, &fault));
    EACH_FAILS(it, tulvorn_check_within(msg, TULVORN_PER, good, 2, &most, &fault));
    EACH_FAILS(it, tulvorn_encode(&value, TULVORN_OER, &it, &fault));
    EACH_FAILS(it, tulvorn_convert(msg, TULVORN_PER, good, 2, &it, &fault));
    EACH_FAILS(it, tulvorn_from_json(all, TEXT(ALL), &it, &fault));
    EACH_FAILS(it, tulvorn_to_json(&value, &it, &fault));
    EACH_FAILS(it, tulvorn_words(&fault, TULVORN_PER, &it));
    EACH_FAILS(it, tulvorn_explain(msg, TULVORN_PER, good, 1, &it));
    EACH_FAILS(it, tulvorn_read_newer(msg, TULVORN_PER, good, 2, &value, &it, &fault));
    EACH_FAILS(it, tulvorn_read_newer(msg, TULVORN_PER, good, 2, &it, &value, &fault));
    EACH_KEEPS(it, tulvorn_decode(msg, TULVORN_PER, good, 2, &it, &fault));
    EACH_KEEPS(it, tulvorn_convert(msg, TULVORN_PER, good, 2, &it, &fault));
    EACH_KEEPS(it, tulvorn_from_json(all, TEXT(ALL), &it, &fault));
    tulvorn_close(&value);
    CHECK(tulvorn_from_json(all, TEXT(ALL), &value, &fault) == TULVORN_DONE);
    EACH_KEEPS(it, tulvorn_encode(&value, TULVORN_OER, &it, &fault));
    EACH_KEEPS(it, tulvorn_to_json(&value, &it, &fault));
    /* and those that take no memory */
    asked = 0;
    CHECK(tulvorn_encoded_len(&value, TULVORN_PER, &size, &fault) == TULVORN_DONE);
    CHECK(tulvorn_encode_into(&value, TULVORN_PER, into, sizeof into, &size, &fault) == TULVORN_DONE);
    CHECK(tulvorn_octets(&value, TEXT("key"), into, sizeof into, &size) == TULVORN_DONE);
    CHECK(tulvorn_text(&value, TEXT("list[0].note"), into, sizeof into, &size) == TULVORN_DONE);
    CHECK(tulvorn_name(&value, TEXT("colour"), into, sizeof into, &size) == TULVORN_DONE);
    CHECK(tulvorn_integer(&value, TEXT("one.number"), &number) == TULVORN_DONE && number == 200);
    CHECK(tulvorn_version(into, sizeof into, &size) == TULVORN_DONE && asked == 0);
    tulvorn_close(&value);
    *count = refused;
    return 0;
}

static int calls(long *refused) {
    tulvorn_handle module = TULVORN_NONE, msg = TULVORN_NONE, all = TULVORN_NONE, other = TULVORN_NONE;
    tulvorn_fault fault;
    CHECK(nothing() == 0 && modules() == 0);
    CHECK(tulvorn_module(TEXT(MODULE), &module, &fault) == TULVORN_DONE);
    CHECK(tulvorn_type(&module, TEXT("Msg"), &msg, &fault) == TULVORN_DONE);
    CHECK(tulvorn_type(&module, TEXT("All"), &all, &fault) == TULVORN_DONE);
    CHECK(memory(&module, &msg, &all, refused) == 0);
    CHECK(newer(&module) == 0 && wide_integers(&module) == 0 && budgets() == 0);
    /* a type outlives its module and its first handle */
    CHECK(tulvorn_share(&module, &other) == TULVORN_MISUSE && tulvorn_share(&msg, &other) == TULVORN_DONE);
    tulvorn_close(&module);
    tulvorn_close(&msg);
    CHECK(messages(&other) == 0 && parts(&all) == 0);
    tulvorn_close(&other);
    tulvorn_close(&all);
    return 0;
}

int main(void) {
    long refused = 0;
    if (calls(&refused)) return 1;
    printf("C: passed, with %ld allocations refused\n", refused);
    return 0;
}
